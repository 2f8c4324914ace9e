package jepmon

import (
	"bytes"
	"context"
	"errors"
	"fmt"
	"os/exec"
	"sort"
	"strings"
)

// RecordedOperation has the fields of porcupine.Operation: an operation with the times of its call and its return. ClientId may
// be any number. At most 64 operations may be open at once.
type RecordedOperation struct {
	ClientId int
	Input    interface{} // an Input
	Call     int64
	Output   interface{} // nil, an int, an int64, an []int64, Missing{}, Unknown{} or Failed{}
	Return   int64
}

// Input says what a recorded operation asked. Name is read, write, cas, add, enqueue, dequeue, acquire or release.
type Input struct {
	Name  string
	Key   int
	Value int64 // of a cas: the old value
	New   int64 // of a cas
}

// Outputs of recorded operations. A read answered Missing found nothing. Unknown means that the operation may have taken place at
// any time after its call, and Failed that it did not.
type (
	Missing struct{}
	Unknown struct{}
	Failed  struct{}
)

type moment struct {
	at        int64
	is        int // the operation
	completes bool
}

// CheckOperations judges recorded operations by `jepmon check`, or by `jepmon script` if a fifo queue has equal values. It gives nil or a *Verdict. Operations that touch in time are taken
// as open at once. With options.Initial nil each register begins as missing.
func CheckOperations(ctx context.Context, options Options, operations []RecordedOperation) error {
	options = withDefaults(options)
	options.Concurrency = 0
	p, err := chooseProgram(options)
	if err != nil {
		return err
	}
	m := newMonitor(options, p)
	if err = m.record(operations); err != nil {
		return err
	}
	words := []string{"check", "-"}
	if len(p.byEnds) > 0 {
		words = []string{"script", "--strict"}
	}
	command := exec.CommandContext(ctx, p.path, append(words, m.options.words(p.kind)...)...)
	command.Stdin = bytes.NewReader(m.buffer)
	said, err := command.Output()
	return verdictOfCheck(said, err, m.options, p, m.history())
}

// verdictOfCheck takes the last line of a report, whose word has to agree with the status of the program.
func verdictOfCheck(said []byte, err error, options Options, p *program, events [][]byte) error {
	var exit *exec.ExitError
	if err != nil && !errors.As(err, &exit) {
		return refused(err.Error())
	}
	lines := strings.Split(strings.TrimSpace(string(said)), "\n")
	last := lines[len(lines)-1]
	verdict, is := verdictOf(last)
	switch {
	case err == nil && last == "legal":
		return nil
	case is && exit != nil && exit.ExitCode() == map[string]int{"illegal": 1, "unknown": 2}[verdict.Status]:
		verdict.Tail, verdict.Hint = tail(events, verdict), hint(verdict, options, p)
		return withCause(*verdict, options, p, events)
	case exit != nil:
		return refused(fmt.Sprintf("%s: %v %s", last, err, strings.TrimSpace(string(exit.Stderr))))
	}
	return refused(fmt.Sprintf("the last line of the report is %.80q, and the status is 0", last))
}

// record appends the lines of a history: calls and returns in the order of their times.
func (m *Monitor) record(operations []RecordedOperation) error {
	threads := make([]int, len(operations))
	for _, moment := range moments(operations) {
		operation := operations[moment.is]
		input, ok := operation.Input.(Input)
		if !ok {
			return fmt.Errorf("jepmon: the Input of operation %d is no jepmon.Input", moment.is)
		}
		if err := m.argumentError(input.Name, input.Key); err != nil {
			return err
		}
		if !moment.completes {
			if len(m.free) == 0 {
				return fmt.Errorf("jepmon: more than %d operations are open at once, the last of them operation %d", m.options.Concurrency, moment.is)
			}
			if isRegister(m.options.Model) && !m.begun[input.Key] {
				m.beginKey(input.Key, m.initial())
			}
			threads[moment.is] = m.free[len(m.free)-1]
			m.free = m.free[:len(m.free)-1]
		}
		if err := m.moment(operation, input, moment, threads[moment.is]); err != nil {
			return err
		}
	}
	return nil
}

// moment appends the call or the return of an operation. One of unknown outcome ends at its call, and its thread goes on.
func (m *Monitor) moment(operation RecordedOperation, input Input, at moment, thread int) error {
	part := input.part()
	if !at.completes {
		m.begins(input.Name, input.Key, part)
		m.event("invoke", m.processes[thread], input.Name, input.Key, part)
		if _, unknown := operation.Output.(Unknown); unknown {
			m.event("info", m.processes[thread], input.Name, input.Key, part)
			m.processes[thread] += m.options.Concurrency
			m.free = append(m.free, thread)
		}
		return nil
	}
	outcome := "ok"
	switch output := operation.Output.(type) {
	case nil:
	case Failed:
		outcome = "fail"
		m.fails(input.Name, input.Key, part)
	case Missing:
		if part = number(Absent); input.Name == "dequeue" {
			outcome, part = "fail", null
		}
	case int:
		part = number(int64(output))
	case int64:
		part = number(output)
	case []int64:
		part = members(output)
	default:
		return fmt.Errorf("jepmon: the Output of operation %d is no answer: %T", at.is, operation.Output)
	}
	m.event(outcome, m.processes[thread], input.Name, input.Key, part)
	m.free = append(m.free, thread)
	return nil
}

func (i Input) part() []byte {
	switch i.Name {
	case "write", "enqueue", "add":
		return number(i.Value)
	case "cas":
		return []byte(fmt.Sprintf("[%d %d]", i.Value, i.New))
	}
	return null
}

// moments gives the calls and returns in their order. Of one time calls come first, which makes no false alarm.
func moments(operations []RecordedOperation) []moment {
	var all []moment
	for i, operation := range operations {
		all = append(all, moment{operation.Call, i, false})
		if _, unknown := operation.Output.(Unknown); !unknown {
			all = append(all, moment{operation.Return, i, true})
		}
	}
	sort.SliceStable(all, func(i, j int) bool {
		if all[i].at != all[j].at {
			return all[i].at < all[j].at
		}
		return !all[i].completes && all[j].completes
	})
	return all
}
