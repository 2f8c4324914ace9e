package jepmon

import (
	"fmt"
	"strconv"
)

// The kind wide-fifo-queue is over as soon as two enqueues of one value have not failed. Such a queue is judged by its ends instead, from
// its second enqueue of the value on. The caller of each function has the lock.

// equalValues is said if such a queue is over its budget.
const equalValues = ". Two enqueues of one value have not failed, so the queue is judged by its ends: give each message a value of its own"

type message struct {
	key   int
	value int64
}

func messageOf(key int, part []byte) message {
	value, _ := strconv.ParseInt(string(part), 10, 64)
	return message{key, value}
}

// begins takes note of the message, if an enqueue begins.
func (m *Monitor) begins(name string, key int, part []byte) {
	if name != "enqueue" || m.program.kind != wideQueue || m.program.byEnds[key] {
		return
	}
	message := messageOf(key, part)
	if m.sent[message] {
		m.program.byEnds[key] = true
		m.append(fmt.Sprintf("[:model %d :%s]\n", key, m.options.Model))
	}
	m.sent[message] = true
}

// fails forgets the message, if an enqueue has failed.
func (m *Monitor) fails(name string, key int, part []byte) {
	if name == "enqueue" {
		delete(m.sent, messageOf(key, part))
	}
}

// forgetMessages begins a new history, after the old one has been forgotten.
func (m *Monitor) forgetMessages() {
	for key := range m.program.byEnds {
		m.append(fmt.Sprintf("[:model %d :%s]\n", key, m.program.kind))
	}
	m.program.byEnds, m.sent = map[int]bool{}, map[message]bool{}
}
