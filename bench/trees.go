// A tree of supervisors in Go, in the shape of the bench of trees: 64 supervisors, each a goroutine that starts its workers one
// after the other, each a goroutine that says when it is up.
// go build -o trees trees.go; trees serial THREADS COUNT starts and stops trees of 63 supervisors with 256 workers each until so
// many workers were started: one supervisor after the other, as OTP's rules say, and in reverse order to stop them; trees full does
// so with all supervisors side by side, which OTP's rules forbid; trees storm THREADS COUNT has 63 supervisors with a worker each that crashes at once, and counts
// restarts. It prints the nanoseconds that took. trees idle THREADS CHILDREN starts a tree of so many workers each, says "up", and
// sleeps until it is ended.
package main

import (
	"fmt"
	"os"
	"runtime"
	"strconv"
	"sync"
	"time"
)

const (
	supervisors = 63
	children    = 256
)

type worker struct {
	stop  chan struct{}
	ended chan struct{}
}

func start() worker {
	child := worker{make(chan struct{}), make(chan struct{})}
	up := make(chan struct{})
	go func() {
		close(up)
		<-child.stop
		close(child.ended)
	}()
	<-up
	return child
}

// Starts its workers in order, waits until it is asked to stop, and stops them in reverse order.
func supervise(children int, up *sync.WaitGroup, stop <-chan struct{}, ended *sync.WaitGroup) {
	workers := make([]worker, children)
	for place := range workers {
		workers[place] = start()
	}
	up.Done()
	<-stop
	for place := children - 1; place >= 0; place-- {
		close(workers[place].stop)
		<-workers[place].ended
	}
	ended.Done()
}

func full(count int) {
	for started := 0; started < count; started += supervisors * children {
		stop := make(chan struct{})
		var up, ended sync.WaitGroup
		up.Add(supervisors)
		ended.Add(supervisors)
		for sup := 0; sup < supervisors; sup++ {
			go supervise(children, &up, stop, &ended)
		}
		up.Wait()
		close(stop)
		ended.Wait()
	}
}

// A supervisor that runs.
type running struct {
	stop  chan struct{}
	ended *sync.WaitGroup
}

// Starts a supervisor, which is up once its workers are.
func startSupervisor() running {
	var up, ended sync.WaitGroup
	up.Add(1)
	ended.Add(1)
	stop := make(chan struct{})
	go supervise(children, &up, stop, &ended)
	up.Wait()
	return running{stop, &ended}
}

// The next supervisor starts once the one before is up, and is stopped before it: at each moment one start or stop is possible.
func serial(count int) {
	for started := 0; started < count; started += supervisors * children {
		tree := make([]running, supervisors)
		for place := range tree {
			tree[place] = startSupervisor()
		}
		for place := supervisors - 1; place >= 0; place-- {
			close(tree[place].stop)
			tree[place].ended.Wait()
		}
	}
}

// A tree to which nothing happens.
func idle(children int) {
	stop := make(chan struct{})
	var up, ended sync.WaitGroup
	up.Add(supervisors)
	ended.Add(supervisors)
	for sup := 0; sup < supervisors; sup++ {
		go supervise(children, &up, stop, &ended)
	}
	up.Wait()
	fmt.Println("up")
	time.Sleep(time.Hour)
}

// Restarts one worker, which crashes at once, so often.
func storm(restarts int, ended *sync.WaitGroup) {
	exits := make(chan int)
	for restart := 0; restart <= restarts; restart++ {
		up := make(chan struct{})
		go func() {
			close(up)
			exits <- 1
		}()
		<-up
		<-exits
	}
	ended.Done()
}

func main() {
	threads, wrongThreads := strconv.Atoi(os.Args[2])
	count, wrongCount := strconv.Atoi(os.Args[3])
	if wrongThreads != nil || wrongCount != nil {
		os.Exit(2)
	}
	runtime.GOMAXPROCS(threads)
	begin := time.Now()
	if os.Args[1] == "idle" {
		idle(count)
	} else if os.Args[1] == "serial" {
		serial(count)
	} else if os.Args[1] == "full" {
		full(count)
	} else {
		var ended sync.WaitGroup
		ended.Add(supervisors)
		for sup := 0; sup < supervisors; sup++ {
			go storm(count/supervisors, &ended)
		}
		ended.Wait()
	}
	fmt.Println(time.Since(begin).Nanoseconds())
}
