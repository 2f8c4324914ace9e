// Package jepmon judges live, in the test that drives them, whether concurrent operations are linearizable. It drives the
// program `jepmon script`, and needs Linux.
//
//	monitor := jepmontest.New(t)                // the test fails if the history is not linearizable
//	monitor.Go(5, func(client int) error {      // five goroutines
//		write := monitor.Write(7, 3)            // the operation begins: before the request is sent
//		return write.Done(store.Put(7, 3))      // it ends: nil is ok, an error is unknown, and errors that Failed names are failed
//	})
//
// No operation waits for a reply. The order of the lines is the history, and a line has its place when it is appended, so the
// verdict may come later. Options.Wait makes each event wait for its reply.
package jepmon

import (
	"context"
	"errors"
	"fmt"
	"os"
	"strconv"
	"strings"
	"sync"
	"syscall"
	"time"
)

// Model is the kind of object that each key is.
type Model string

const (
	Register       Model = "register"
	CASRegister    Model = "cas-register"
	Mutex          Model = "mutex"
	FIFOQueue      Model = "fifo-queue"
	UnorderedQueue Model = "unordered-queue"
	Set            Model = "set"
)

const wideQueue Model = "wide-fifo-queue"

// wide has the models of which the program may have a second kind. It is the same object, and fewer outcomes count against the budget.
// The name of the kind also names its model.
var wide = map[Model]Model{
	Register:       "wide-register",
	CASRegister:    "wide-cas-register",
	FIFOQueue:      wideQueue,
	UnorderedQueue: "wide-unordered-queue",
	Set:            "wide-set",
}

// modelOf is the model by one of its names.
func modelOf(name Model) Model {
	for model, kind := range wide {
		if kind == name {
			return model
		}
	}
	return name
}

// Absent is the value of a missing key. The key of a register begins with it, if Options.Initial is nil.
const Absent int64 = -1 << 63

// ErrFailed, wrapped in an error, says that an operation certainly did not take place.
var ErrFailed = errors.New("jepmon: the operation did not take place")

// ErrClosed is the error of an operation that begins or ends after Close.
var ErrClosed = errors.New("jepmon: the monitor is closed")

const most = 1 << 20 // bytes that wait for the program: if there are more, operations wait before they begin

// Options of a monitor. The zero value is good.
type Options struct {
	Program     string           // default: JEPMON, else the program beside the package, else jepmon on the PATH
	Model       Model            // default: Register
	Concurrency int              // operations that may be open at once, 1 to 64; default: 64
	Budget      int              // outcomes of a key that are followed; default: the program's
	ByEnds      bool             // keys are judged by all their outcomes: no model is judged as its wide kind
	Wait        bool             // each event waits for its reply: no request is sent after a bad event
	Initial     *int64           // what each register holds at first; default: it is missing
	Failed      func(error) bool // whether an error means that the operation did not take place; default: ErrFailed and refused connections
	GoOn        bool             // a key that is over its budget does not end the test; Close says unknown then
	Timeout     time.Duration    // how long a reply may take; default: a minute
	Out         string           // folder of the history of a test that is not legal; default: JEPMON_OUT, else the folder for temporary files
}

// Verdict is an error that says why a history is not legal.
type Verdict struct {
	Status  string   // illegal, unknown or refused
	Key     int      // of illegal and unknown
	Index   int      // of illegal and unknown: the event, from 0
	Reply   string   // what the program said, or what is wrong with it
	Tail    []string // the last events of the key, each after its index
	Hint    string   // of unknown: what helps
	Also    []string // of unknown, after Close with GoOn: the other keys over their budget, as "unknown key 2 index 13"
	Cause   string   // the cause in words, after Close, if jepmon-judge is there
	History string   // the file of the history, after Close

	reported bool // it has all that is known at the end of its history
}

func (v *Verdict) Error() string {
	lines := append([]string{v.Reply}, v.Tail...)
	if v.Hint != "" {
		lines = append(lines, v.Hint)
	}
	for _, other := range v.Also {
		lines = append(lines, "also "+other)
	}
	if v.Cause != "" {
		lines = append(lines, v.Cause)
	}
	if v.History != "" {
		lines = append(lines, "history: "+v.History)
	}
	return strings.Join(lines, "\n  ")
}

type count struct{ name, outcome string }

// Monitor is a running `jepmon script`. Any number of goroutines may use it.
type Monitor struct {
	options Options
	program *program
	context context.Context
	cancel  context.CancelFunc

	mutex     sync.Mutex
	changed   *sync.Cond // replies came, there is room, or it is over
	filled    *sync.Cond // there is something to write, or it is over
	buffer    []byte     // lines that the writer has not taken
	lines     int        // that were appended
	replies   int        // that came
	free      []int      // threads without an operation
	processes []int      // the process of each thread
	begun     map[int]bool
	sent      map[message]bool // of a wide fifo queue: enqueued, and has not failed
	kept      [][]byte         // the lines since the last reset
	counts    map[count]int
	open      map[*Operation]bool
	last      string // the last reply
	bad       *Verdict
	unknown   *Verdict
	closed    bool
	resetting bool

	ended chan struct{} // the program has ended
}

// Start starts the program. A *Verdict says why it can't be used. No operation begins once ctx is done.
func Start(ctx context.Context, options Options) (*Monitor, error) {
	options = withDefaults(options)
	program, err := chooseProgram(options)
	if err != nil {
		return nil, err
	}
	m := newMonitor(options, program)
	if err = program.start(m.options); err != nil {
		return nil, err
	}
	m.context, m.cancel = context.WithCancel(ctx)
	go m.write()
	go m.read()
	go m.watch()
	m.mutex.Lock()
	m.append("[:verdict]\n") // it answers legal, or it is no jepmon
	for m.replies == 0 && m.bad == nil {
		m.changed.Wait()
	}
	bad := m.bad
	m.mutex.Unlock()
	if bad != nil {
		m.Close()
		return nil, bad
	}
	return m, nil
}

// newMonitor gives a monitor whose program has not started.
func newMonitor(options Options, program *program) *Monitor {
	if options.Concurrency == 0 {
		options.Concurrency = 64
		if program.about.clients < 64 {
			options.Concurrency = program.about.clients
		}
	}
	m := &Monitor{options: options, program: program, begun: map[int]bool{}, sent: map[message]bool{}, counts: map[count]int{},
		open: map[*Operation]bool{}, ended: make(chan struct{})}
	m.changed, m.filled = sync.NewCond(&m.mutex), sync.NewCond(&m.mutex)
	for thread := 0; thread < options.Concurrency; thread++ {
		m.free = append(m.free, options.Concurrency-1-thread)
		m.processes = append(m.processes, thread)
	}
	return m
}

func withDefaults(o Options) Options {
	if o.Model = modelOf(o.Model); o.Model == "" {
		o.Model = Register
	}
	if o.Timeout == 0 {
		o.Timeout = time.Minute
	}
	if o.Out == "" {
		if o.Out = os.Getenv("JEPMON_OUT"); o.Out == "" {
			o.Out = os.TempDir()
		}
	}
	if o.Failed == nil {
		o.Failed = func(err error) bool { return errors.Is(err, ErrFailed) || errors.Is(err, syscall.ECONNREFUSED) }
	}
	return o
}

// --- Lines: the caller has the lock ---

// fail ends the test, once. The caller has the lock.
func (m *Monitor) fail(verdict *Verdict) {
	if m.bad == nil {
		m.bad = verdict
		m.cancel()
	}
	m.changed.Broadcast()
	m.filled.Broadcast()
}

// history gives all events since the last reset, in pieces. The caller has the lock.
func (m *Monitor) history() [][]byte {
	return events(append(m.kept[:len(m.kept):len(m.kept)], m.buffer)...)
}

// append adds text of one line. The caller has the lock.
func (m *Monitor) append(text string) {
	m.buffer = append(m.buffer, text...)
	m.appended()
}

func (m *Monitor) appended() {
	m.lines++
	m.filled.Signal()
}

// event adds the line of an event. The caller has the lock.
func (m *Monitor) event(kind string, process int, name string, key int, part []byte) {
	b := append(m.buffer, "{:type :"...)
	b = append(b, kind...)
	b = append(b, " :process "...)
	b = strconv.AppendInt(b, int64(process), 10)
	b = append(b, " :f :"...)
	b = append(b, name...)
	b = append(b, " :value ["...)
	b = strconv.AppendInt(b, int64(key), 10)
	b = append(b, ' ')
	b = append(b, part...)
	m.buffer = append(b, "]}\n"...)
	m.appended()
}

// settled waits for the replies to all lines so far, if events wait. The caller has the lock.
func (m *Monitor) settled() error {
	for lines := m.lines; m.options.Wait && m.replies < lines && m.bad == nil; {
		m.changed.Wait()
	}
	return m.running()
}

func (m *Monitor) running() error {
	if m.bad != nil {
		return m.bad
	}
	if m.closed {
		return ErrClosed
	}
	return nil
}

// --- What has come of it ---

// Context is done once the history is not legal, and once Start's context is.
func (m *Monitor) Context() context.Context { return m.context }

// Err is the *Verdict that has ended the test, if there is one so far.
func (m *Monitor) Err() error {
	m.mutex.Lock()
	defer m.mutex.Unlock()
	if m.bad != nil {
		return m.bad
	}
	return nil
}

// Counts says how many operations ended how, as "write ok", and how many are open, as "write open".
func (m *Monitor) Counts() map[string]int {
	m.mutex.Lock()
	defer m.mutex.Unlock()
	counts := map[string]int{}
	for of, number := range m.counts {
		counts[of.name+" "+of.outcome] = number
	}
	for operation := range m.open {
		counts[operation.name+" open"]++
	}
	return counts
}

// Reset begins a new history in the same program, and waits for the verdict on the one before. No operation may be open. The
// keys begin again, so the store has to have nothing under them. A history has at most 1,048,576 events.
func (m *Monitor) Reset() error {
	m.mutex.Lock()
	defer m.mutex.Unlock()
	if err := m.running(); err != nil {
		return err
	}
	if len(m.open) > 0 || m.resetting {
		return fmt.Errorf("jepmon: %d operations are open: a reset waits for none", len(m.open))
	}
	m.append("[:rewind 0]\n")
	m.resetting = true
	for m.replies < m.lines && m.bad == nil {
		m.changed.Wait()
	}
	m.resetting = false
	m.changed.Broadcast()
	if m.bad != nil {
		return m.bad
	}
	m.describe()
	m.kept, m.begun = nil, map[int]bool{}
	m.forgetMessages()
	for thread := range m.processes {
		m.processes[thread] = thread
	}
	return nil
}

// Close ends the program, and gives the verdict on all events: a *Verdict, or nil if each line got its reply and all is legal.
func (m *Monitor) Close() error {
	m.mutex.Lock()
	m.closed = true
	m.filled.Broadcast()
	m.changed.Broadcast()
	m.mutex.Unlock()
	<-m.ended
	m.cancel()
	m.mutex.Lock()
	defer m.mutex.Unlock()
	if m.bad == nil {
		m.bad = m.describe()
	}
	if m.bad == nil {
		return nil
	}
	m.bad = withCause(*m.bad, m.options, m.program, m.history())
	return m.bad
}

// describe completes the first `unknown` of a test that goes on, at the end of its history. The caller has the lock.
func (m *Monitor) describe() *Verdict {
	if m.unknown != nil {
		m.unknown = withCause(*m.unknown, m.options, m.program, m.history())
	}
	return m.unknown
}

// Go runs work(0) to work(n-1), each in a goroutine, and waits for them. The error is the verdict so far, else the first of theirs.
func (m *Monitor) Go(n int, work func(client int) error) error {
	errs := make(chan error, n)
	for client := 0; client < n; client++ {
		go func(client int) { errs <- work(client) }(client)
	}
	var first error
	for client := 0; client < n; client++ {
		if err := <-errs; err != nil && first == nil {
			first = err
		}
	}
	if err := m.Err(); err != nil {
		return err
	}
	return first
}
