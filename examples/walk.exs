# Prints the tree of supervisors of an application that runs, as a term that `otp import` reads.
#
#   mix run examples/walk.exs APP       in a project: starts it, and walks APP
#   elixir walk.exs APP                 starts APP, which is on the path, and walks it
#
# In the shell of a node that runs (`iex --remsh`): Code.require_file("walk.exs"), then Walk.print(:my_app),
# or Walk.print_process(MyApp.Supervisor).
# Of a start function the arguments aren't printed, which may hold secrets, but how many they are.

defmodule Walk do
  def main([app]) do
    app = String.to_atom(app)

    case Application.ensure_all_started(app) do
      {:ok, _} -> print(app)
      {:error, why} -> stop("not started: #{inspect(why)}")
    end
  end

  def main(_), do: stop("usage: elixir walk.exs APP")

  def print(app), do: print_process(top(app))

  # Of a supervisor by its name or process.
  def print_process(pid), do: :io.format("~p.~n", [{:ok, walk(pid)}])

  defp stop(text) do
    IO.puts(:stderr, text)
    System.halt(1)
  end

  # The topmost supervisor of an application: the one process that its master holds.
  defp top(app) do
    case :application_controller.get_master(app) do
      :undefined ->
        stop("#{app} doesn't run")

      master ->
        case :application_master.get_child(master) do
          {top, _} when is_pid(top) -> top
          _ -> stop("#{app} has no supervisor")
        end
    end
  end

  defp walk(pid) do
    case tree(pid, :sys.get_state(pid)) do
      nil -> stop("not a supervisor: #{inspect(pid)}")
      tree -> tree
    end
  end

  # The record of supervisor.erl: with its name 12 fields since OTP 24, 11 before.
  defp tree(pid, state)
       when is_tuple(state) and elem(state, 0) == :state and tuple_size(state) >= 11 do
    flags = %{strategy: elem(state, 2), intensity: elem(state, 5), period: elem(state, 6)}

    flags =
      if tuple_size(state) == 11,
        do: flags,
        else: Map.put(flags, :auto_shutdown, elem(state, 9))

    {flags, children(pid, elem(state, 2), elem(state, 3))}
  end

  # A DynamicSupervisor: what it starts is called by nobody's name.
  defp tree(_pid, %{__struct__: DynamicSupervisor} = state) do
    flags = %{strategy: state.strategy, intensity: state.max_restarts, period: state.max_seconds}
    {flags, for({_pid, row} <- state.children, do: dynamic(row))}
  end

  defp tree(_pid, _state), do: nil

  # The child from which all are made.
  defp children(_pid, :simple_one_for_one, {_ids, rows}),
    do: for(row <- Map.values(rows), do: template(row))

  # The last one that was started comes first in the answer.
  defp children(pid, _strategy, _rows),
    do: for(row <- Enum.reverse(:supervisor.which_children(pid)), do: child(pid, row))

  defp child(pid, {id, below, type, _modules}) do
    {:ok, spec} = :supervisor.get_childspec(pid, id)
    spec = plain(spec)

    case type do
      :supervisor when is_pid(below) ->
        case tree(below, :sys.get_state(below)) do
          nil -> spec
          tree -> Map.put(spec, :tree, tree)
        end

      _ ->
        spec
    end
  end

  defp plain(%{start: {module, function, arguments}} = spec) when is_list(arguments),
    do: %{spec | start: {module, function, length(arguments)}}

  defp plain(%{start: {module, function, _}} = spec),
    do: %{spec | start: {module, function, :undefined}}

  # The record `child` of supervisor.erl.
  defp template({:child, _pid, id, {m, f, _}, restart, significant, shutdown, type, modules}),
    do: %{
      id: id,
      start: {m, f, :undefined},
      restart: restart,
      significant: significant,
      shutdown: shutdown,
      type: type,
      modules: modules
    }

  defp template({:child, _pid, id, {m, f, _}, restart, shutdown, type, modules}),
    do: %{
      id: id,
      start: {m, f, :undefined},
      restart: restart,
      shutdown: shutdown,
      type: type,
      modules: modules
    }

  # What a DynamicSupervisor keeps of a child: start function, restart, shutdown, type and modules.
  defp dynamic({{m, f, _}, restart, shutdown, type, modules}),
    do: %{
      id: m,
      start: {m, f, :undefined},
      restart: restart,
      shutdown: shutdown,
      type: type,
      modules: modules
    }
end

# In a shell it is only loaded.
case System.argv() do
  [] -> :ok
  words -> Walk.main(words)
end
