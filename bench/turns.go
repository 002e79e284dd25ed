// Empty turns of 256 goroutines: each gives its thread up and is taken again.
// go build -o turns turns.go; turns THREADS COUNT prints the nanoseconds that all turns together took.
package main

import (
	"fmt"
	"os"
	"runtime"
	"strconv"
	"sync"
	"time"
)

const jobs = 256

func main() {
	threads, wrongThreads := strconv.Atoi(os.Args[1])
	count, wrongCount := strconv.Atoi(os.Args[2])
	if wrongThreads != nil || wrongCount != nil {
		os.Exit(2)
	}
	runtime.GOMAXPROCS(threads)
	begin := make(chan struct{})
	var ended sync.WaitGroup
	for job := 0; job < jobs; job++ {
		ended.Add(1)
		go func() {
			<-begin
			for turn := 0; turn < count/jobs; turn++ {
				runtime.Gosched()
			}
			ended.Done()
		}()
	}
	start := time.Now()
	close(begin)
	ended.Wait()
	fmt.Println(time.Since(start).Nanoseconds())
}
