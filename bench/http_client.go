// Gets a page by Go's net/http, one request after another over one connection, and prints how many a second: `http_client URL COUNT`.
package main

import (
	"fmt"
	"io"
	"net/http"
	"os"
	"strconv"
	"time"
)

func main() {
	count, _ := strconv.Atoi(os.Args[2])
	from := time.Now()
	for i := 0; i < count; i++ {
		answer, err := http.Get(os.Args[1])
		if err != nil || answer.StatusCode != 200 {
			fmt.Println(answer, err)
			os.Exit(1)
		}
		io.Copy(io.Discard, answer.Body)
		answer.Body.Close()
	}
	fmt.Printf("%.1f\n", float64(count)/time.Since(from).Seconds())
}
