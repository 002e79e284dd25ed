package supervision

import (
	"context"
	"errors"
	"fmt"
	"strings"
	"time"
)

// Body is what a child runs. A nil is a normal end, an error a crash, as is a panic. Once its context is done it is to return.
type Body func(context.Context) error

// Option says something of a child.
type Option func(*member)

type member struct {
	id, restart string
	shutdown    time.Duration
	significant bool
	body        Body
	below       *Supervisor
}

// Transient children are started again where they crash, Temporary ones never; others always.
func Transient(it *member) { it.restart = "transient" }

// Temporary children are never started again.
func Temporary(it *member) { it.restart = "temporary" }

// EndsSupervisor says that the child's end ends its supervisor, if it isn't started again.
func EndsSupervisor(it *member) { it.significant = true }

// Within is the time that a child has to return once its context is done: 5 seconds where it isn't said. No goroutine can be killed: one
// that is there after it is given up, and Watch is told so.
func Within(time time.Duration) Option {
	return func(it *member) { it.shutdown = time }
}

// Supervisor has children: goroutines, and other supervisors.
type Supervisor struct {
	strategy  string
	intensity int
	period    time.Duration
	members   []member
	watch     func(string)
}

// New is a supervisor with OTP's defaults: one_for_one, one restart in five seconds.
func New() *Supervisor {
	return &Supervisor{strategy: "one_for_one", intensity: 1, period: 5 * time.Second, watch: func(string) {}}
}

// Strategy is one_for_one, one_for_all or rest_for_one.
func (s *Supervisor) Strategy(strategy string) *Supervisor {
	s.strategy = strategy
	return s
}

// Intensity allows so many restarts in a period of whole seconds.
func (s *Supervisor) Intensity(restarts int, period time.Duration) *Supervisor {
	s.intensity, s.period = restarts, period
	return s
}

// Child adds one more child.
func (s *Supervisor) Child(id string, body Body, options ...Option) *Supervisor {
	it := member{id: id, restart: "permanent", shutdown: 5 * time.Second, body: body}
	for _, option := range options {
		option(&it)
	}
	s.members = append(s.members, it)
	return s
}

// Supervisor adds one more child, which is a supervisor.
func (s *Supervisor) Supervisor(id string, below *Supervisor) *Supervisor {
	s.members = append(s.members, member{id: id, below: below})
	return s
}

// Watch is told each start, end and kill of the tree whose root this is. It is called by the goroutine of Run.
func (s *Supervisor) Watch(watch func(string)) *Supervisor {
	s.watch = watch
	return s
}

// GaveUp says why a root has ended that wasn't asked to; Last is the error of the child that crashed last.
type GaveUp struct {
	Cause Cause
	Last  error
}

func (g *GaveUp) Error() string { return "supervision: " + g.Cause.String() }

// Unwrap is the error of the child that crashed last.
func (g *GaveUp) Unwrap() error { return g.Last }

// Writes the tree file; the start word of a child is the place of its body.
func (s *Supervisor) write(table string, text *strings.Builder, bodies *[]Body) error {
	if s.period%time.Second != 0 {
		return fmt.Errorf("supervision: a period is whole seconds, and isn't %v", s.period)
	}
	fmt.Fprintf(text, "strategy = %q\nintensity = %d\nperiod = %d\n", s.strategy, s.intensity, s.period/time.Second)
	for _, it := range s.members {
		if it.significant {
			text.WriteString("auto_shutdown = \"any_significant\"\n")
			break
		}
	}
	for _, it := range s.members {
		fmt.Fprintf(text, "[[%s]]\nid = %q\nstart = \"f%d\"\n", table, it.id, len(*bodies))
		if it.below != nil {
			fmt.Fprintf(text, "[%s.tree]\n", table)
			if err := it.below.write(table+".tree.child", text, bodies); err != nil {
				return err
			}
			continue
		}
		fmt.Fprintf(text, "restart = %q\nsignificant = %t\nshutdown = %d\n", it.restart, it.significant, it.shutdown.Milliseconds())
		*bodies = append(*bodies, it.body)
	}
	return nil
}

type live struct {
	order   Order
	path    string
	cancel  context.CancelFunc
	isAsked bool
}

type ended struct {
	number uint64
	err    error
}

type run struct {
	tree   *Tree
	bodies []Body
	begun  time.Time
	live   map[uint64]*live
	ended  chan ended
	over   chan struct{}
	last   error
	watch  func(string)
}

// Run runs the tree until its root has ended. Once the context is done it stops the tree in order, and returns nil then. Where the
// root gives up it returns a *GaveUp.
func (s *Supervisor) Run(ctx context.Context) error {
	var text strings.Builder
	it := &run{begun: time.Now(), live: map[uint64]*live{}, ended: make(chan ended), over: make(chan struct{}), watch: s.watch}
	if err := s.write("child", &text, &it.bodies); err != nil {
		return err
	}
	tree, err := Open(text.String())
	if err != nil {
		return err
	}
	it.tree = tree
	defer it.leave()
	for {
		end, err := it.carryOut()
		if err != nil {
			return err
		}
		if end != nil {
			if end.Cause == Asked {
				return nil
			}
			return &GaveUp{end.Cause, it.last}
		}
		if ctx, err = it.wait(ctx); err != nil {
			return err
		}
	}
}

func (r *run) now() uint64 { return uint64(time.Since(r.begun).Milliseconds()) }

// Nothing goes on that was begun here, also where the run ends by a fault of this layer.
func (r *run) leave() {
	close(r.over)
	for _, it := range r.live {
		it.cancel()
	}
	r.tree.Close()
}

// Waits until something has happened, or is due, and tells it. The context that is to be waited for from then on.
func (r *run) wait(ctx context.Context) (context.Context, error) {
	var due <-chan time.Time
	if reading, ok := r.tree.Deadline(); ok {
		timer := time.NewTimer(time.Until(r.begun.Add(time.Duration(reading) * time.Millisecond)))
		defer timer.Stop()
		due = timer.C
	}
	select {
	case it := <-r.ended:
		return ctx, r.tell(it)
	case <-ctx.Done():
		return context.Background(), r.tree.Stop(r.now())
	case <-due:
		return ctx, r.tree.Tick(r.now())
	}
}

// Carries out all orders; the one of the root's end, if it came.
func (r *run) carryOut() (*Order, error) {
	for {
		order, ok, err := r.tree.Next()
		if err != nil || !ok {
			return nil, err
		}
		switch order.Kind {
		case Start:
			err = r.start(order)
		case Ask, Kill:
			err = r.end(order)
		case End:
			return &order, nil
		}
		if err != nil {
			return nil, err
		}
	}
}

func (r *run) start(order Order) error {
	path, err := r.tree.Path(order.Supervisor)
	if err != nil {
		return err
	}
	var place int
	if _, err := fmt.Sscanf(order.Start, "f%d", &place); err != nil {
		return err
	}
	ctx, cancel := context.WithCancel(context.Background())
	it := &live{order: order, path: path + order.ID, cancel: cancel}
	r.live[order.Number] = it
	r.watch(fmt.Sprintf("start %s #%d", it.path, order.Number))
	go r.play(ctx, r.bodies[place], order.Number)
	return r.tree.Note(r.now(), order.Supervisor, Up, order.Number, Normal)
}

// Runs a body, and tells how it ended; nobody, once the run is over.
func (r *run) play(ctx context.Context, body Body, number uint64) {
	err := errors.New("exited")
	defer func() {
		if it := recover(); it != nil {
			err = fmt.Errorf("panic: %v", it)
		}
		select {
		case r.ended <- ended{number, err}:
		case <-r.over:
		}
	}()
	err = body(ctx)
}

func (r *run) end(order Order) error {
	it := r.live[order.Number]
	if it == nil {
		return nil
	}
	it.isAsked = true
	it.cancel()
	if order.Kind == Ask {
		return nil
	}
	r.watch(fmt.Sprintf("give up %s #%d", it.path, order.Number))
	delete(r.live, order.Number)
	return r.tree.Note(r.now(), order.Supervisor, Exit, order.Number, Killed)
}

// Tells that a child has ended. Of one that was given up nothing is told.
func (r *run) tell(ended ended) error {
	it := r.live[ended.number]
	if it == nil {
		return nil
	}
	delete(r.live, ended.number)
	it.cancel()
	reason := Normal
	switch {
	case ended.err != nil && !(it.isAsked && errors.Is(ended.err, context.Canceled)):
		reason, r.last = Error(ended.err.Error()), ended.err
	case it.isAsked:
		reason = Shutdown
	}
	r.watch(fmt.Sprintf("exit %s #%d %s", it.path, ended.number, reason))
	return r.tree.Note(r.now(), it.order.Supervisor, Exit, ended.number, reason)
}
