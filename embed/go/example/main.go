// A small web service under supervision: a pool of two workers that gives up when they crash too often, and a server.
//
//	go run ./example 8080       then: curl localhost:8080/work ; curl localhost:8080/crash
//	go run ./example            asks itself, prints what comes, and stops
package main

import (
	"context"
	"fmt"
	"io"
	"net"
	"net/http"
	"os"
	"time"

	"example.invalid/otp/supervision"
)

type order struct {
	what   string
	answer chan string
}

// What stays when a child crashes is what isn't its own.
var orders = make(chan order)

// Does one order after another. A crash loses the one in hand, and says so to who waits.
func worker(ctx context.Context) error {
	for {
		select {
		case <-ctx.Done():
			return nil
		case it := <-orders:
			if it.what == "crash" {
				it.answer <- "crashes"
				panic("a bad order")
			}
			it.answer <- "did " + it.what
		}
	}
}

func serve(answer http.ResponseWriter, request *http.Request) {
	it := order{request.URL.Path[1:], make(chan string, 1)}
	select {
	case orders <- it:
		fmt.Fprintln(answer, <-it.answer)
	case <-request.Context().Done():
	}
}

// The server; its address is told once it listens.
func web(port string, address chan<- string) supervision.Body {
	return func(ctx context.Context) error {
		listener, err := net.Listen("tcp", "127.0.0.1:"+port)
		if err != nil {
			return err
		}
		server := &http.Server{Handler: http.HandlerFunc(serve)}
		go func() {
			<-ctx.Done()
			server.Close()
		}()
		address <- listener.Addr().String()
		if err := server.Serve(listener); err != http.ErrServerClosed {
			return err
		}
		return nil
	}
}

func ask(client *http.Client, address, what string) (string, error) {
	answer, err := client.Get("http://" + address + "/" + what)
	if err != nil {
		return "", err
	}
	defer answer.Body.Close()
	text, err := io.ReadAll(answer.Body)
	return string(text), err
}

// The pool bears one crash in a minute: at the second it gives up, and is started anew. The third time is one too many for the root; then nobody
// listens.
func tour(address string) {
	client := &http.Client{Timeout: 5 * time.Second}
	for _, what := range []string{"tea", "crash", "cake"} {
		text, err := ask(client, address, what)
		if err != nil {
			fmt.Println("no answer:", err)
			return
		}
		fmt.Print(text)
	}
	for {
		if _, err := ask(client, address, "crash"); err != nil {
			return
		}
	}
}

func main() {
	port := "0"
	if len(os.Args) > 1 {
		port = os.Args[1]
	}
	address, told := make(chan string, 8), make(chan struct{})
	pool := supervision.New().Strategy("one_for_all").Intensity(1, time.Minute).Child("a", worker).Child("b", worker)
	shop := supervision.New().Intensity(2, time.Minute).Supervisor("pool", pool).Child("web", web(port, address), supervision.Within(time.Second))
	go func() {
		defer close(told)
		if at := <-address; port == "0" {
			tour(at)
		}
	}()
	err := shop.Run(context.Background())
	<-told
	fmt.Println("the shop has ended:", err)
}
