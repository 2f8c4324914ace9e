package jepmon

import (
	"bytes"
	"fmt"
	"strings"
	"time"
)

// The exchange with the program: one goroutine writes, one reads, and one looks at the time.

// write sends the lines. All lines that were appended since its last write go by one write.
func (m *Monitor) write() {
	defer m.program.input.Close()
	for {
		m.mutex.Lock()
		for len(m.buffer) == 0 && !m.closed && m.bad == nil {
			m.filled.Wait()
		}
		if len(m.buffer) == 0 || m.bad != nil {
			m.mutex.Unlock()
			return
		}
		piece := m.buffer
		m.buffer = make([]byte, 0, 1<<16)
		m.kept = append(m.kept, piece)
		if len(piece) > most {
			m.changed.Broadcast()
		}
		m.mutex.Unlock()
		if _, err := m.program.input.Write(piece); err != nil {
			return // the reader says why
		}
	}
}

var legal = []byte("legal\n")

// read takes the replies until the program ends, and says how it has ended.
func (m *Monitor) read() {
	defer close(m.ended)
	refusal := ""
	for refusal == "" {
		line, err := m.program.output.ReadBytes('\n')
		if err != nil {
			break // a last line without a line feed is no reply
		}
		count := 1
		if bytes.Equal(line, legal) {
			count += m.program.legalReplies()
		}
		if refusal = m.replied(strings.TrimSpace(string(line)), count); m.Err() != nil && refusal == "" {
			m.program.kill()
		}
	}
	how, status := m.program.end(refusal != "")
	m.mutex.Lock()
	defer m.mutex.Unlock()
	switch expected := map[string]int{"legal": 0, "unknown": 2}; {
	case refusal != "":
		m.fail(refused(refusal + how.why()))
	case !m.closed || m.replies != m.lines:
		m.fail(refused(fmt.Sprintf("jepmon has ended %s, after %d replies to %d lines%s", how.ending, m.replies, m.lines, how.why())))
	case status != expected[strings.SplitN(m.last, " ", 2)[0]]:
		m.fail(refused(fmt.Sprintf("jepmon has ended %s, after the reply %q%s", how.ending, m.last, how.why())))
	}
	m.filled.Broadcast()
}

// replied takes a reply that came `count` times. It gives the text of a refusal: the program ends after one.
func (m *Monitor) replied(reply string, count int) string {
	m.mutex.Lock()
	defer m.mutex.Unlock()
	m.replies += count
	m.last = reply
	defer m.changed.Broadcast()
	if m.replies > m.lines {
		m.fail(refused(fmt.Sprintf("jepmon gave %d replies to %d lines", m.replies, m.lines)))
	}
	if reply == "legal" {
		return ""
	}
	verdict, is := verdictOf(reply)
	if !is {
		return strings.TrimSpace("refused: " + strings.TrimPrefix(reply, "refused "))
	}
	goesOn := verdict.Status == "unknown" && m.options.GoOn
	if goesOn && m.unknown != nil || m.bad != nil {
		return ""
	}
	verdict.Tail, verdict.Hint = tail(m.history(), verdict), hint(verdict, m.options, m.program)
	if goesOn {
		m.unknown = verdict
	} else {
		m.fail(verdict)
	}
	return ""
}

// slow is said if no reply comes in time.
const slow = ": lines take long if many clients share a key, so use more keys, or a greater Timeout"

// watch kills a program that gives no reply in time.
func (m *Monitor) watch() {
	ticker := time.NewTicker(m.options.Timeout / 10)
	defer ticker.Stop()
	for before, since := -1, time.Now(); ; {
		select {
		case <-m.ended:
			return
		case <-ticker.C:
		}
		m.mutex.Lock()
		if m.replies != before || m.replies == m.lines && !m.closed {
			before, since = m.replies, time.Now()
		}
		if time.Since(since) > m.options.Timeout {
			m.fail(refused(fmt.Sprintf("jepmon gave no reply for %v, after %d replies to %d lines%s", m.options.Timeout, m.replies, m.lines, slow)))
			m.program.kill()
		}
		m.mutex.Unlock()
	}
}
