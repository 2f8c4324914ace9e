package jepmon

import (
	"fmt"
	"sort"
	"strconv"
	"strings"
)

// Operation is an operation that has begun. It ends by one of OK, Value, Maybe, Values, Done, Fail and Info, which give the
// *Verdict that has ended the test, or nil if the test goes on.
type Operation struct {
	monitor *Monitor
	err     error
	thread  int
	name    string
	key     int
	part    []byte
	over    bool
}

var null = []byte("nil")

// Read reads a register or a set. It ends by Value or Maybe; of a set by Values.
func (m *Monitor) Read(key int) *Operation { return m.begin("read", key, null) }

// Write writes a value to a register.
func (m *Monitor) Write(key int, value int64) *Operation { return m.begin("write", key, number(value)) }

// CAS sets a cas-register to the value if it is old. If it was another one, the operation has failed.
func (m *Monitor) CAS(key int, old, value int64) *Operation {
	return m.begin("cas", key, []byte(fmt.Sprintf("[%d %d]", old, value)))
}

// Add adds a member to a set.
func (m *Monitor) Add(key int, member int64) *Operation { return m.begin("add", key, number(member)) }

// Enqueue sends a message to a queue.
func (m *Monitor) Enqueue(key int, message int64) *Operation {
	return m.begin("enqueue", key, number(message))
}

// Dequeue receives a message from a queue. It ends by Value or Maybe.
func (m *Monitor) Dequeue(key int) *Operation { return m.begin("dequeue", key, null) }

// Acquire takes a lock. If somebody holds it, the operation has failed.
func (m *Monitor) Acquire(key int) *Operation { return m.begin("acquire", key, null) }

// Release gives a lock back.
func (m *Monitor) Release(key int) *Operation { return m.begin("release", key, null) }

func number(value int64) []byte { return strconv.AppendInt(nil, value, 10) }

func (m *Monitor) begin(name string, key int, part []byte) *Operation {
	m.mutex.Lock()
	defer m.mutex.Unlock()
	o := &Operation{monitor: m, name: name, key: key, part: part, over: true}
	for (len(m.buffer) > most || m.resetting) && m.running() == nil {
		m.changed.Wait()
	}
	if o.err = m.running(); o.err == nil {
		o.err = m.context.Err()
	}
	if o.err == nil {
		o.err = m.argumentError(name, key)
	}
	if o.err == nil && len(m.free) == 0 {
		o.err = fmt.Errorf("jepmon: more than %d operations are open at once: raise Concurrency, %d at most", m.options.Concurrency, m.program.about.clients)
	}
	if o.err != nil {
		return o
	}
	if !m.begun[key] && isRegister(m.options.Model) {
		m.beginKey(key, m.initial())
	}
	o.over = false
	o.thread = m.free[len(m.free)-1]
	m.free = m.free[:len(m.free)-1]
	m.open[o] = true
	m.begins(name, key, part)
	m.event("invoke", m.processes[o.thread], name, key, part)
	o.err = m.settled()
	return o
}

// operations says which operations each object has. jepmon calls any other one illegal, which is the test's fault.
var operations = map[Model]string{
	Register:       "read write",
	CASRegister:    "read write cas",
	Mutex:          "acquire release",
	FIFOQueue:      "enqueue dequeue",
	UnorderedQueue: "enqueue dequeue",
	Set:            "add read",
}

func (m *Monitor) argumentError(name string, key int) error {
	if known := operations[m.options.Model]; !strings.Contains(" "+known+" ", " "+name+" ") {
		return fmt.Errorf("jepmon: a %s has no operation %s: it has %s", m.options.Model, name, known)
	}
	if most := m.program.about.keys - 1; key < 0 || key > most {
		return fmt.Errorf("jepmon: key %d is none: keys are 0 to %d", key, most)
	}
	return nil
}

func isRegister(model Model) bool { return model == Register || model == CASRegister }

func (m *Monitor) initial() int64 {
	if m.options.Initial != nil {
		return *m.options.Initial
	}
	return Absent
}

// beginKey says what a register holds at first, by a write. The caller has the lock, and there is a free thread.
func (m *Monitor) beginKey(key int, value int64) {
	m.begun[key] = true
	process := m.processes[m.free[len(m.free)-1]]
	m.event("invoke", process, "write", key, number(value))
	m.event("ok", process, "write", key, number(value))
}

// Begin says what a register holds before its first operation.
func (m *Monitor) Begin(key int, value int64) error {
	m.mutex.Lock()
	defer m.mutex.Unlock()
	if err := m.running(); err != nil {
		return err
	}
	if err := m.argumentError("write", key); err != nil {
		return err
	}
	if m.begun[key] || len(m.free) == 0 {
		return fmt.Errorf("jepmon: key %d has begun: say what it holds before its first operation", key)
	}
	m.beginKey(key, value)
	return m.settled()
}

// end appends a completion. It gives the verdict, if the test has ended.
func (o *Operation) end(outcome string, part []byte) error {
	m := o.monitor
	m.mutex.Lock()
	defer m.mutex.Unlock()
	if o.over {
		if o.err == nil {
			return fmt.Errorf("jepmon: the %s of key %d has ended already", o.name, o.key)
		}
		return o.err
	}
	if err := m.running(); err != nil {
		return err // it stays open
	}
	o.over = true
	delete(m.open, o)
	m.event(outcome, m.processes[o.thread], o.name, o.key, part)
	m.counts[count{o.name, outcome}]++
	if outcome == "fail" {
		m.fails(o.name, o.key, o.part)
	}
	if outcome == "info" {
		m.processes[o.thread] += m.options.Concurrency
	}
	m.free = append(m.free, o.thread)
	return m.settled()
}

// Err says why the operation did not begin, as a *Verdict that has ended the test. Then do nothing.
func (o *Operation) Err() error { return o.err }

// OK ends an operation that took place.
func (o *Operation) OK() error { return o.end("ok", o.part) }

// Fail ends an operation that certainly did not take place.
func (o *Operation) Fail() error { return o.end("fail", o.part) }

// Info ends an operation of unknown outcome: it may have taken place, or may yet.
func (o *Operation) Info() error { return o.end("info", o.part) }

// Done ends an operation by the error of the store's client: nil is OK, an error that Options.Failed names is Fail, else Info.
func (o *Operation) Done(err error) error {
	switch {
	case err == nil:
		return o.OK()
	case o.monitor.options.Failed(err):
		return o.Fail()
	}
	return o.Info()
}

// Value ends a read or a dequeue by its answer.
func (o *Operation) Value(value int64, err error) error {
	if err != nil {
		return o.Done(err)
	}
	return o.end("ok", number(value))
}

// Maybe ends a read whose key may be missing, or a dequeue whose queue may be empty.
func (o *Operation) Maybe(value int64, found bool, err error) error {
	switch {
	case err != nil || found:
		return o.Value(value, err)
	case o.name == "dequeue":
		return o.Fail()
	}
	return o.end("ok", number(Absent))
}

// Values ends the read of a set by its members.
func (o *Operation) Values(values []int64, err error) error {
	if err != nil {
		return o.Done(err)
	}
	return o.end("ok", members(values))
}

// members gives the text of a set.
func members(values []int64) []byte {
	sorted := append([]int64(nil), values...)
	sort.Slice(sorted, func(i, j int) bool { return sorted[i] < sorted[j] })
	text := []byte("#{")
	for i, value := range sorted {
		if i == 0 || value != sorted[i-1] {
			text = append(strconv.AppendInt(text, value, 10), ' ')
		}
	}
	return append(text, '}')
}
