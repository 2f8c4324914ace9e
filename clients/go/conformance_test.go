package jepmon_test

import (
	"bufio"
	"context"
	"errors"
	"fmt"
	"os"
	"os/exec"
	"path/filepath"
	"strconv"
	"strings"
	"sync"
	"testing"
	"time"

	"jepmon"
)

const table = "../conformance"

// scenario is a scenario of the table: its name, and its lines in words.
type scenario struct {
	name  string
	lines [][]string
}

func scenarios(t *testing.T) []scenario {
	file, err := os.Open(filepath.Join(table, "scenarios.txt"))
	if err != nil {
		t.Fatal(err)
	}
	defer file.Close()
	var all []scenario
	for lines := bufio.NewScanner(file); lines.Scan(); {
		words := strings.Fields(lines.Text())
		switch {
		case len(words) == 0 || strings.HasPrefix(words[0], "#"):
		case words[0] == "scenario":
			all = append(all, scenario{name: words[1]})
		default:
			last := &all[len(all)-1]
			last.lines = append(last.lines, words)
		}
	}
	return all
}

// minorVersion gives the minor version of the program that is tested.
func minorVersion(t *testing.T) int64 {
	program := os.Getenv("JEPMON")
	if program == "" {
		program = "../../dist/jepmon"
	}
	said, err := exec.Command(program, "--version").Output()
	numbers := strings.Split(string(said), ".")
	if err != nil || len(numbers) < 3 {
		t.Fatalf("%s: %v, and its --version prints %q", program, err, said)
	}
	return integer(numbers[1])
}

func TestConformance(t *testing.T) {
	minor := minorVersion(t)
	for _, scenario := range scenarios(t) {
		for _, wait := range []bool{false, true} {
			if wait && scenario.says("waiting", "no") || scenario.since() > minor {
				continue
			}
			name := scenario.name + map[bool]string{false: "", true: "_waiting"}[wait]
			fault := run(scenario, wait, t.TempDir())
			if fault != nil {
				t.Errorf("conformance %s: FAILED: %v", name, fault)
			} else {
				fmt.Printf("conformance %s: ok\n", name)
			}
		}
	}
}

// since gives the minor version of the program that the scenario needs, or 0.
func (s scenario) since() int64 {
	for _, line := range s.lines {
		if line[0] == "since" {
			return integer(line[1])
		}
	}
	return 0
}

func (s scenario) says(words ...string) bool {
	for _, line := range s.lines {
		if strings.Join(line, " ") == strings.Join(words, " ") {
			return true
		}
	}
	return false
}

// runner runs one scenario.
type runner struct {
	options    jepmon.Options
	monitor    *jepmon.Monitor
	operations map[string]*jepmon.Operation
	ended      error // the verdict that has ended the test, or why it did not begin
}

func run(s scenario, wait bool, out string) error {
	r := &runner{options: jepmon.Options{Wait: wait, Out: out}, operations: map[string]*jepmon.Operation{}}
	defer func() {
		if r.monitor != nil {
			r.monitor.Close()
		}
	}()
	for _, words := range s.lines {
		if err := r.step(words); err != nil {
			return fmt.Errorf("%s: %v", strings.Join(words, " "), err)
		}
	}
	return nil
}

func integer(word string) int64 {
	value, err := strconv.ParseInt(word, 10, 64)
	if err != nil {
		panic(err)
	}
	return value
}

func (r *runner) step(words []string) error {
	switch words[0] {
	case "waiting", "since":
	case "model":
		r.options.Model = jepmon.Model(words[1])
	case "concurrency":
		r.options.Concurrency = int(integer(words[1]))
	case "budget":
		r.options.Budget = int(integer(words[1]))
	case "initial":
		value := integer(words[1])
		r.options.Initial = &value
	case "by-ends":
		r.options.ByEnds = true
	case "unknown":
		r.options.GoOn = true
	case "timeout":
		r.options.Timeout = time.Duration(integer(words[1])) * time.Second
	case "program":
		r.options.Program, _ = filepath.Abs(filepath.Join(table, "programs", words[1]))
	case "expect":
		return r.expect(words[1], words[2:])
	case "says":
		if text := fmt.Sprint(r.verdict()); !strings.Contains(text, strings.Join(words[1:], " ")) {
			return fmt.Errorf("the verdict is %s", text)
		}
	case "count":
		if got := r.monitor.Counts()[words[1]+" "+words[2]]; int64(got) != integer(words[3]) {
			return fmt.Errorf("there are %d", got)
		}
	default:
		return r.act(words)
	}
	return nil
}

// act does what uses the monitor. After the verdict it does nothing.
func (r *runner) act(words []string) error {
	if r.monitor == nil && r.ended == nil {
		r.monitor, r.ended = jepmon.Start(context.Background(), r.options)
	}
	if r.ended != nil {
		return nil
	}
	var err error
	switch words[0] {
	case "rejected":
		_, err = r.use(words[1:])
		var verdict *jepmon.Verdict
		if err == nil || errors.As(err, &verdict) {
			return fmt.Errorf("it was not rejected: %v", err)
		}
		return nil
	case "invoke":
		r.operations[words[1]], err = r.use(words[2:])
	case "reset", "begin":
		_, err = r.use(words)
	case "clients":
		err = r.clients(words)
	case "parts":
		err = r.parts(words)
	default:
		err = r.end(r.operations[words[1]], words)
	}
	var verdict *jepmon.Verdict
	if err != nil && !errors.As(err, &verdict) {
		return err
	}
	r.ended = err
	return nil
}

// use begins an operation, or does what else stands for one line.
func (r *runner) use(words []string) (*jepmon.Operation, error) {
	m, numbers := r.monitor, []int64{}
	for _, word := range words[1:] {
		numbers = append(numbers, integer(word))
	}
	key := 0
	if len(numbers) > 0 {
		key = int(numbers[0])
	}
	var operation *jepmon.Operation
	switch words[0] {
	case "reset":
		return nil, m.Reset()
	case "begin":
		return nil, m.Begin(key, numbers[1])
	case "read":
		operation = m.Read(key)
	case "write":
		operation = m.Write(key, numbers[1])
	case "cas":
		operation = m.CAS(key, numbers[1], numbers[2])
	case "add":
		operation = m.Add(key, numbers[1])
	case "enqueue":
		operation = m.Enqueue(key, numbers[1])
	case "dequeue":
		operation = m.Dequeue(key)
	case "acquire":
		operation = m.Acquire(key)
	case "release":
		operation = m.Release(key)
	default:
		return nil, fmt.Errorf("there is no such line")
	}
	return operation, operation.Err()
}

func (r *runner) end(operation *jepmon.Operation, words []string) error {
	switch words[0] {
	case "ok":
		return operation.OK()
	case "fail":
		return operation.Fail()
	case "info":
		return operation.Info()
	case "value":
		return operation.Value(integer(words[2]), nil)
	case "missing":
		return operation.Maybe(0, false, nil)
	case "values":
		members := []int64{}
		for _, word := range words[2:] {
			members = append(members, integer(word))
		}
		return operation.Values(members, nil)
	}
	return fmt.Errorf("there is no such line")
}

// option gives the number behind a word, or 0.
func option(words []string, name string) int64 {
	for i := 0; i+1 < len(words); i++ {
		if words[i] == name {
			return integer(words[i+1])
		}
	}
	return 0
}

// clients has goroutines write and read a store, which may lose some writes.
func (r *runner) clients(words []string) error {
	clients, operations, keys, loses := int(option(words, "clients")), int(option(words, "operations")), int(option(words, "keys")), option(words, "loses")
	var lock sync.Mutex
	store, writes := map[int]int64{}, int64(0)
	return r.monitor.Go(clients, func(client int) error {
		for i := 0; i < operations; i++ {
			key, value := (client*7+i/2)%keys, int64(client*operations+i)
			if i%2 == 0 {
				write := r.monitor.Write(key, value)
				if write.Err() != nil {
					return write.Err()
				}
				lock.Lock()
				if writes++; loses == 0 || writes%loses != 0 {
					store[key] = value
				}
				lock.Unlock()
				if err := write.OK(); err != nil {
					return err
				}
				continue
			}
			read := r.monitor.Read(key)
			lock.Lock()
			found, is := store[key]
			lock.Unlock()
			if err := read.Maybe(found, is, nil); err != nil {
				return err
			}
		}
		return nil
	})
}

// parts has one history after another. JEPMON_PARTS="20 500000" makes it ten million operations.
func (r *runner) parts(words []string) error {
	parts, operations := option(words, "parts"), option(words, "operations")
	if more := strings.Fields(os.Getenv("JEPMON_PARTS")); len(more) == 2 {
		parts, operations = integer(more[0]), integer(more[1])
	}
	for ; parts > 0; parts-- {
		for i := int64(0); i < operations; i += 2 {
			key := int(i / 2 % 64)
			if err := r.monitor.Write(key, i).OK(); err != nil {
				return err
			}
			if err := r.monitor.Read(key).Value(i, nil); err != nil {
				return err
			}
		}
		if err := r.monitor.Reset(); err != nil {
			return err
		}
	}
	return nil
}

// verdict closes the monitor.
func (r *runner) verdict() error {
	if r.monitor == nil && r.ended == nil {
		r.monitor, r.ended = jepmon.Start(context.Background(), r.options)
	}
	if r.monitor != nil {
		return r.monitor.Close()
	}
	return r.ended
}

// expect compares the verdict.
func (r *runner) expect(word string, more []string) error {
	got := r.verdict()
	var verdict *jepmon.Verdict
	if got != nil && !errors.As(got, &verdict) {
		return got
	}
	if word == "legal" || verdict == nil {
		if got != nil || word != "legal" {
			return fmt.Errorf("the verdict is %v", got)
		}
		return nil
	}
	want := word
	if word != "refused" && len(more) == 2 {
		want = fmt.Sprintf("%s key %s index %s", word, more[0], more[1])
	}
	if !strings.HasPrefix(verdict.Reply, want) || word == "refused" && !strings.Contains(verdict.Reply, strings.Join(more, " ")) {
		return fmt.Errorf("the verdict is %v", verdict)
	}
	return nil
}
