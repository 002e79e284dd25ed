package supervision

import (
	"context"
	"errors"
	"strings"
	"sync"
	"testing"
	"time"
)

// What happened, in its order.
type seen struct {
	lock  sync.Mutex
	words []string
	now   map[string]chan struct{}
}

func newSeen(names ...string) *seen {
	it := &seen{now: map[string]chan struct{}{}}
	for _, name := range names {
		it.now[name] = make(chan struct{}, 1000)
	}
	return it
}

func (s *seen) add(word string) {
	s.lock.Lock()
	s.words = append(s.words, word)
	s.lock.Unlock()
	if it := s.now[word]; it != nil {
		it <- struct{}{}
	}
}

func (s *seen) all() string {
	s.lock.Lock()
	defer s.lock.Unlock()
	return strings.Join(s.words, " ")
}

// A child that runs until it is to return.
func (s *seen) steady(name string) Body {
	return func(ctx context.Context) error {
		s.add("+" + name)
		<-ctx.Done()
		s.add("-" + name)
		return nil
	}
}

var errLost = errors.New("lost")

func crash(context.Context) error { return errLost }

func TestStopsInReverseOrder(t *testing.T) {
	it := newSeen("+a", "+b", "+c")
	top := New().Child("a", it.steady("a")).Supervisor("pool", New().Child("b", it.steady("b"))).Child("c", it.steady("c"))
	ctx, cancel := context.WithCancel(context.Background())
	go func() {
		<-it.now["+a"]
		<-it.now["+b"]
		<-it.now["+c"]
		cancel()
	}()
	if err := top.Run(ctx); err != nil {
		t.Fatal(err)
	}
	if all := it.all(); !strings.HasSuffix(all, "-c -b -a") {
		t.Fatal(all)
	}
}

func TestGivesUpWithTheLastCrash(t *testing.T) {
	err := New().Intensity(2, time.Minute).Child("a", crash).Run(context.Background())
	var gaveUp *GaveUp
	if !errors.As(err, &gaveUp) || gaveUp.Cause != Intensity || !errors.Is(err, errLost) {
		t.Fatal(err)
	}
}

func TestAPoolGivesUpAndIsStartedAnew(t *testing.T) {
	it := newSeen("calm")
	left := 3
	flaky := func(ctx context.Context) error {
		it.add("flaky")
		if left > 0 {
			left--
			panic("a bad order")
		}
		it.add("calm")
		<-ctx.Done()
		return ctx.Err()
	}
	pool := New().Strategy("one_for_all").Intensity(1, time.Minute).Child("mate", it.steady("mate")).Child("flaky", flaky)
	ctx, cancel := context.WithCancel(context.Background())
	go func() {
		<-it.now["calm"]
		cancel()
	}()
	if err := New().Intensity(1, time.Minute).Supervisor("pool", pool).Run(ctx); err != nil {
		t.Fatal(err)
	}
	if all := it.all(); strings.Count(all, "flaky") != 4 || strings.Count(all, "+mate") > 4 {
		t.Fatal(all)
	}
}

func TestOneThatHearsNothingIsGivenUp(t *testing.T) {
	it, done := newSeen("+deaf"), make(chan struct{})
	deaf := func(context.Context) error {
		it.add("+deaf")
		<-done
		return nil
	}
	given := ""
	top := New().Child("deaf", deaf, Within(50*time.Millisecond)).Watch(func(line string) { given += line + "\n" })
	ctx, cancel := context.WithCancel(context.Background())
	go func() {
		<-it.now["+deaf"]
		cancel()
	}()
	if err := top.Run(ctx); err != nil {
		t.Fatal(err)
	}
	close(done)
	if !strings.Contains(given, "give up deaf #1") {
		t.Fatal(given)
	}
}

func TestAJobThatIsDoneEndsItsSupervisor(t *testing.T) {
	it := newSeen()
	job := func(context.Context) error { return nil }
	err := New().Child("web", it.steady("web")).Child("job", job, Transient, EndsSupervisor).Run(context.Background())
	var gaveUp *GaveUp
	if !errors.As(err, &gaveUp) || gaveUp.Cause != Significant {
		t.Fatal(err)
	}
}

func TestWhatIsRefused(t *testing.T) {
	var refused *Refused
	if err := New().Child("a", crash).Child("a", crash).Run(context.Background()); !errors.As(err, &refused) || refused.Code != 3 {
		t.Fatal(err)
	}
	if err := New().Intensity(1, time.Millisecond).Run(context.Background()); err == nil {
		t.Fatal("a period of a millisecond")
	}
}
