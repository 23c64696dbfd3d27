// A booking by Go: WAY ORIGIN, with its requests on standard input, a line each: METHOD PATH, and of a POST KEY BODY. Prints the
// status and the body of each answer.
package main

import (
	"bufio"
	"fmt"
	"io"
	"net/http"
	"os"
	"strings"
	"time"
)

var way, origin = os.Args[1], os.Args[2]

// one client, which keeps its connections open
var client = http.Client{Timeout: 20 * time.Second, Transport: &http.Transport{ExpectContinueTimeout: time.Minute}}

// What a body is handed over as. Of a reader that is no buffer or string the length is not known, so it comes in chunks.
func bodyOf(text string) io.Reader {
	if way == "go" {
		return strings.NewReader(text)
	}
	return io.MultiReader(strings.NewReader(text))
}

func ask(method, path, key string, body io.Reader) {
	request, err := http.NewRequest(method, origin+path, body)
	check(err)
	request.Header.Set("Desk-Agent", "ann")
	if key != "" {
		request.Header.Set("Desk-Key", key)
	}
	if way == "go-expect" && body != nil {
		request.Header.Set("Expect", "100-continue")
	}
	answer, err := client.Do(request)
	check(err)
	defer answer.Body.Close()
	text, err := io.ReadAll(answer.Body)
	check(err)
	fmt.Println(answer.StatusCode, string(text))
}

func check(err error) {
	if err != nil {
		fmt.Println(err)
		os.Exit(1)
	}
}

func main() {
	for lines := bufio.NewScanner(os.Stdin); lines.Scan(); {
		words := strings.Split(lines.Text(), " ")
		if words[0] == "GET" {
			ask("GET", words[1], "", nil)
		} else {
			ask("POST", words[1], words[2], bodyOf(words[3]))
		}
	}
}
