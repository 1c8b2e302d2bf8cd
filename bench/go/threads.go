// The workloads of bench/threads in Go: `threads WORKLOAD OPERATIONS [trace]` writes how many nanoseconds they took.
// With the third word Go's execution tracer runs meanwhile, and what it writes is thrown away.
package main

import (
	"fmt"
	"io"
	"os"
	"runtime"
	"runtime/trace"
	"strconv"
	"sync"
	"time"
)

// all runs so many goroutines and waits for them.
func all(n int, body func(k int)) {
	var wg sync.WaitGroup
	for k := 0; k < n; k++ {
		k := k
		wg.Add(1)
		go func() {
			defer wg.Done()
			body(k)
		}()
	}
	wg.Wait()
}

func sends(c chan uint64, n int) {
	for i := 0; i < n; i++ {
		c <- 1
	}
}

func receives(c chan uint64, n int) {
	for i := 0; i < n; i++ {
		<-c
	}
}

func between(in, out chan uint64, n int) {
	for i := 0; i < n; i++ {
		<-in
		out <- 1
	}
}

func channels(n, room int) []chan uint64 {
	made := make([]chan uint64, n)
	for i := range made {
		made[i] = make(chan uint64, room)
	}
	return made
}

var workloads = map[string]func(n int){
	"yield": func(n int) {
		all(16, func(int) {
			for i := 0; i < n/16; i++ {
				runtime.Gosched()
			}
		})
	},
	"spawn": func(n int) {
		for i := 0; i < n; i++ {
			go func() {}()
			runtime.Gosched()
		}
	},
	"ping-pong": func(n int) {
		c := channels(2, 0)
		all(2, func(k int) {
			for i := 0; i < n/2; i++ {
				if k == 0 {
					c[0] <- 1
					<-c[1]
				} else {
					<-c[0]
					c[1] <- 1
				}
			}
		})
	},
	"buffered": func(n int) {
		c := make(chan uint64, 64)
		all(2, func(k int) {
			if k == 0 {
				sends(c, n)
			} else {
				receives(c, n)
			}
		})
	},
	"ring": func(n int) {
		c := channels(64, 0)
		go func() { c[0] <- 1 }()
		all(64, func(k int) {
			for i := 0; i < n/64; i++ {
				<-c[k]
				if k < 63 || i+1 < n/64 {
					c[(k+1)%64] <- 1
				}
			}
		})
	},
	"pipeline": func(n int) {
		c := channels(9, 0)
		all(10, func(k int) {
			switch k {
			case 0:
				sends(c[0], n/9)
			case 9:
				receives(c[8], n/9)
			default:
				between(c[k-1], c[k], n/9)
			}
		})
	},
	"fan-in": func(n int) {
		c := make(chan uint64, 16)
		all(17, func(k int) {
			if k < 16 {
				sends(c, n/16)
			} else {
				receives(c, n/16*16)
			}
		})
	},
	"contended": func(n int) {
		c := make(chan uint64, 8)
		all(16, func(k int) {
			if k < 8 {
				sends(c, n/8)
			} else {
				receives(c, n/8)
			}
		})
	},
}

func main() {
	n, err := strconv.Atoi(os.Args[2])
	if err != nil {
		panic(err)
	}
	run := workloads[os.Args[1]]
	if len(os.Args) > 3 {
		if err := trace.Start(io.Discard); err != nil {
			panic(err)
		}
		defer trace.Stop()
	}
	start := time.Now()
	run(n)
	fmt.Println(time.Since(start).Nanoseconds())
}
