// client runs a command through `ssh-mux -M`, as a client in proxy mode.
//
//	mkdir client && cp client.go client && cd client
//	go mod init client && go get golang.org/x/crypto/ssh
//	go run . ~/.ssh/shared/control 'echo up; exit 7'
//
// It was not run with a release of golang.org/x/crypto that has NewControlClientConn, since none was
// at hand. It was run with an older one (0.4.0, Go 1.19), to which a function of that name was added
// that says hello, asks for proxy mode and hands the frames to the package's own mux.
package main

import (
	"errors"
	"fmt"
	"net"
	"os"

	"golang.org/x/crypto/ssh"
)

// run gives the status with which the command ends.
func run(control, command string) (int, error) {
	socket, err := net.Dial("unix", control)
	if err != nil {
		return 0, err
	}
	conn, channels, requests, err := ssh.NewControlClientConn(socket)
	if err != nil {
		return 0, err
	}
	// From here on it is like any other client, over the connection that all share.
	client := ssh.NewClient(conn, channels, requests)
	defer client.Close()
	session, err := client.NewSession()
	if err != nil {
		return 0, err
	}
	session.Stdin, session.Stdout, session.Stderr = os.Stdin, os.Stdout, os.Stderr
	err = session.Run(command)
	var ended *ssh.ExitError
	if errors.As(err, &ended) {
		return ended.ExitStatus(), nil
	}
	return 0, err
}

func main() {
	if len(os.Args) != 3 {
		fmt.Fprintln(os.Stderr, "usage: client CONTROL COMMAND")
		os.Exit(2)
	}
	status, err := run(os.Args[1], os.Args[2])
	if err != nil {
		fmt.Fprintln(os.Stderr, "client:", err)
		os.Exit(255)
	}
	os.Exit(status)
}
