// A goroutine that waits at a channel is sent something, from another, which waits until it has noted it.
// go build -o wakes wakes.go; wakes sleeper|at_once THREADS COUNT prints the nanoseconds from each send to the note of it, together:
// each send after a pause in which all fell asleep, or at once after the note before.
package main

import (
	"fmt"
	"os"
	"runtime"
	"strconv"
	"sync/atomic"
	"time"
)

const pause = time.Millisecond

func main() {
	threads, wrongThreads := strconv.Atoi(os.Args[2])
	count, wrongCount := strconv.ParseInt(os.Args[3], 10, 64)
	if wrongThreads != nil || wrongCount != nil {
		os.Exit(2)
	}
	runtime.GOMAXPROCS(threads)
	var seen int64
	sent := make(chan int64)
	go func() {
		for number := range sent {
			atomic.StoreInt64(&seen, number)
		}
	}()
	var taken time.Duration
	for number := int64(1); number <= count; number++ {
		if os.Args[1] == "sleeper" {
			time.Sleep(pause)
		}
		begin := time.Now()
		sent <- number
		for atomic.LoadInt64(&seen) < number {
			runtime.Gosched()
		}
		taken += time.Since(begin)
	}
	fmt.Println(taken.Nanoseconds())
}
