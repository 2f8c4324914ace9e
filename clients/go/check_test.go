package jepmon_test

import (
	"context"
	"errors"
	"os"
	"strings"
	"testing"
	"time"

	"jepmon"
)

func write(value int64) jepmon.Input { return jepmon.Input{Name: "write", Value: value} }

var read = jepmon.Input{Name: "read"}

func check(t *testing.T, model jepmon.Model, operations []jepmon.RecordedOperation) string {
	t.Helper()
	zero := int64(0)
	err := jepmon.CheckOperations(context.Background(), jepmon.Options{Model: model, Initial: &zero, Out: t.TempDir()}, operations)
	var verdict *jepmon.Verdict
	if errors.As(err, &verdict) {
		return verdict.Status
	}
	if err != nil {
		return "rejected"
	}
	return "legal"
}

// The two histories of Porcupine's README, of a register that begins with 0.
func TestPorcupinesExamples(t *testing.T) {
	linearizable := []jepmon.RecordedOperation{{0, write(100), 0, nil, 100}, {1, read, 25, 100, 75}, {2, read, 30, 0, 60}}
	if got := check(t, jepmon.Register, linearizable); got != "legal" {
		t.Errorf("it is %s", got)
	}
	wrong := []jepmon.RecordedOperation{{0, write(200), 0, nil, 100}, {1, read, 10, 200, 30}, {2, read, 40, 0, 90}}
	if got := check(t, jepmon.Register, wrong); got != "illegal" {
		t.Errorf("it is %s", got)
	}
}

func TestUnknownAndFailedOutcomes(t *testing.T) {
	operations := []jepmon.RecordedOperation{
		{1, write(1), 0, nil, 1}, {1, write(2), 2, jepmon.Unknown{}, 0}, {1, write(3), 3, jepmon.Failed{}, 4},
		{1000, read, 5, 1, 6}, {1000, read, 7, int64(2), 8}}
	if got := check(t, jepmon.Register, operations); got != "legal" {
		t.Errorf("it is %s", got)
	}
	if got := check(t, jepmon.Register, append(operations, jepmon.RecordedOperation{5, read, 9, 3, 10})); got != "illegal" {
		t.Errorf("a failed write was read: it is %s", got)
	}
	if got := check(t, jepmon.Register, append(operations, jepmon.RecordedOperation{5, read, 9, jepmon.Missing{}, 10})); got != "illegal" {
		t.Errorf("a key was lost: it is %s", got)
	}
}

func TestBadRecords(t *testing.T) {
	for what, operation := range map[string]jepmon.RecordedOperation{
		"input": {0, "write", 0, nil, 1}, "output": {0, read, 0, "text", 1}, "operation": {0, jepmon.Input{Name: "acquire"}, 0, nil, 1},
		"key": {0, jepmon.Input{Name: "read", Key: 70000}, 0, 0, 1},
	} {
		if got := check(t, jepmon.Register, []jepmon.RecordedOperation{operation}); got != "rejected" {
			t.Errorf("a bad %s: it is %s", what, got)
		}
	}
	var many []jepmon.RecordedOperation
	for i := 0; i < 65; i++ {
		many = append(many, jepmon.RecordedOperation{i, read, int64(i), 0, 100})
	}
	if got := check(t, jepmon.Register, many); got != "rejected" {
		t.Errorf("65 open operations: it is %s", got)
	}
}

func TestQueuesAndSets(t *testing.T) {
	send, receive := jepmon.Input{Name: "enqueue", Value: 5}, jepmon.Input{Name: "dequeue"}
	if got := check(t, jepmon.FIFOQueue, []jepmon.RecordedOperation{{0, send, 0, nil, 1}, {0, receive, 2, 5, 3}, {0, receive, 4, jepmon.Missing{}, 5}}); got != "legal" {
		t.Errorf("the queue is %s", got)
	}
	add := jepmon.Input{Name: "add", Value: 5}
	if got := check(t, jepmon.Set, []jepmon.RecordedOperation{{0, add, 0, nil, 1}, {0, read, 2, []int64{}, 3}}); got != "illegal" {
		t.Errorf("the set is %s", got)
	}
}

// Eight clients that never rest: more outcomes than the budget of a register by its ends.
func TestManyClientsOfOneKey(t *testing.T) {
	var operations []jepmon.RecordedOperation
	for i := int64(0); i < 400; i++ {
		input, output := write(i), interface{}(nil)
		if i%2 == 1 {
			input, output = read, i-1
		}
		operations = append(operations, jepmon.RecordedOperation{ClientId: int(i % 8), Input: input, Call: 10*i - 35, Output: output, Return: 10*i + 38})
	}
	if got := check(t, jepmon.Register, operations); got != "legal" {
		t.Errorf("it is %s", got)
	}
	err := jepmon.CheckOperations(context.Background(), jepmon.Options{ByEnds: true, Out: t.TempDir()}, operations)
	var verdict *jepmon.Verdict
	if !errors.As(err, &verdict) || verdict.Status != "unknown" || verdict.Hint == "" {
		t.Errorf("by ends it is %v", err)
	}
}

func TestManyOperations(t *testing.T) {
	var operations []jepmon.RecordedOperation
	for i := 0; i < 100_000; i++ {
		input, output := jepmon.Input{Name: "write", Key: i % 1000 / 2, Value: int64(i)}, interface{}(nil)
		if i%2 == 1 {
			input, output = jepmon.Input{Name: "read", Key: i % 1000 / 2}, int64(i-1)
		}
		operations = append(operations, jepmon.RecordedOperation{i, input, int64(2 * i), output, int64(2*i + 1)})
	}
	begun := time.Now()
	if got := check(t, jepmon.Register, operations); got != "legal" {
		t.Errorf("it is %s", got)
	}
	t.Log(len(operations), "operations in", time.Since(begun))
}

func TestQueueOfEqualValues(t *testing.T) {
	enqueue, dequeue := jepmon.Input{Name: "enqueue", Key: 7, Value: 5}, jepmon.Input{Name: "dequeue", Key: 7}
	operations := []jepmon.RecordedOperation{{0, enqueue, 0, nil, 1}, {0, enqueue, 2, nil, 3}, {1, dequeue, 4, 5, 5}, {1, dequeue, 6, 5, 7}}
	if got := check(t, jepmon.FIFOQueue, operations); got != "legal" {
		t.Errorf("it is %s", got)
	}
	operations[3].Output = 6
	err := jepmon.CheckOperations(context.Background(), jepmon.Options{Model: jepmon.FIFOQueue, Out: t.TempDir()}, operations)
	var verdict *jepmon.Verdict
	if !errors.As(err, &verdict) || verdict.Reply != "illegal key 7 index 7" || len(verdict.Tail) != 8 {
		t.Fatalf("it is %v", err)
	}
	text, err := os.ReadFile(verdict.History)
	if err != nil || strings.Count(string(text), "\n") != 8 || strings.Contains(string(text), ":model") {
		t.Errorf("the history is %s: %v", text, err)
	}
}
