package jepmon

import (
	"bufio"
	"bytes"
	"errors"
	"fmt"
	"io"
	"os"
	"os/exec"
	"path/filepath"
	"runtime"
	"strconv"
	"strings"
	"sync"
	"syscall"
	"time"
)

// program is a running `jepmon script`, or one that has not started.
type program struct {
	path    string
	about   about
	kind    Model        // by which it judges all keys but these:
	byEnds  map[int]bool // fifo queues of equal values, which it judges by their ends
	command *exec.Cmd
	input   io.WriteCloser
	output  *bufio.Reader
	errors  lastBytes
}

func refused(reply string) *Verdict {
	if !strings.HasPrefix(reply, "refused") {
		reply = "refused: " + reply
	}
	return &Verdict{Status: "refused", Key: -1, Index: -1, Reply: reply}
}

func (p *program) start(o Options) (err error) {
	p.command = exec.Command(p.path, append([]string{"script", "--strict"}, o.words(p.kind)...)...)
	p.command.SysProcAttr = &syscall.SysProcAttr{Setpgid: true} // Ctrl-C in a terminal is for the test
	p.command.Stderr = &p.errors
	if p.input, err = p.command.StdinPipe(); err != nil {
		return err
	}
	output, err := p.command.StdoutPipe()
	if err != nil {
		return err
	}
	p.output = bufio.NewReaderSize(output, 1<<16)
	if err = p.command.Start(); err != nil {
		return refused(err.Error())
	}
	return nil
}

// chooseProgram finds the program, and the kind by which it judges. A *Verdict says why it can't be used.
func chooseProgram(o Options) (*program, error) {
	path, err := findProgram(o.Program)
	if err != nil {
		return nil, refused(err.Error())
	}
	about, err := ask(path, o.Timeout)
	if err != nil {
		return nil, refused(err.Error())
	}
	kind := o.Model
	if wide := wide[o.Model]; wide != "" && !o.ByEnds && about.has(wide) {
		kind = wide
	}
	return &program{path: path, about: about, kind: kind, byEnds: map[int]bool{}}, nil
}

// words are those options that `jepmon script` and `jepmon check` have.
func (o Options) words(kind Model) []string {
	words := []string{"--concurrency", strconv.Itoa(o.Concurrency), "--model", string(kind)}
	if o.Budget > 0 {
		words = append(words, "--budget", strconv.Itoa(o.Budget))
	}
	return words
}

// findProgram gives the path of the program: the one that is named, or that JEPMON names; else the one that lies beside this
// package, or in the clone in which this package lies; else jepmon on the PATH.
func findProgram(named string) (string, error) {
	if named == "" {
		named = os.Getenv("JEPMON")
	}
	if named != "" {
		return named, nil
	}
	if found := beside("jepmon", filepath.Join("dist", "jepmon")); found != "" {
		return found, nil
	}
	found, err := exec.LookPath("jepmon")
	if err != nil {
		return "", errors.New("there is no jepmon: JEPMON names the program, or it is on the PATH")
	}
	return found, nil
}

// beside looks for a program in the folder of this package and in each folder above it. A script of a clone is none.
func beside(names ...string) string {
	_, file, _, _ := runtime.Caller(0)
	for folder := filepath.Dir(file); ; folder = filepath.Dir(folder) {
		for _, name := range names {
			if isProgram(filepath.Join(folder, name)) {
				return filepath.Join(folder, name)
			}
		}
		if folder == filepath.Dir(folder) {
			return ""
		}
	}
}

// isProgram says whether this is a file of machine code.
func isProgram(path string) bool {
	file, err := os.Open(path)
	if err != nil {
		return false
	}
	defer file.Close()
	first := make([]byte, 4)
	_, err = io.ReadFull(file, first)
	return err == nil && string(first) == "\x7fELF"
}

// legalReplies takes the replies `legal` that have come already, and says how many they are.
func (p *program) legalReplies() int {
	text, _ := p.output.Peek(p.output.Buffered())
	count := 0
	for bytes.HasPrefix(text, legal) {
		text = text[len(legal):]
		count++
	}
	p.output.Discard(count * len(legal))
	return count
}

func (p *program) kill() { syscall.Kill(-p.command.Process.Pid, syscall.SIGKILL) }

// ending is how a program has ended, and what it wrote to standard error.
type ending struct{ ending, errors string }

func (e ending) why() string {
	if e.errors == "" {
		return ""
	}
	return ": " + e.errors
}

// end waits until the program ends, and says how and by which status. A program that is not needed any more is killed after a while.
func (p *program) end(isOver bool) (ending, int) {
	if isOver {
		timer := time.AfterFunc(time.Second, p.kill)
		defer timer.Stop()
	}
	io.Copy(io.Discard, p.output)
	p.command.Wait()
	state := p.command.ProcessState
	how := fmt.Sprintf("with status %d", state.ExitCode())
	if signal, ok := state.Sys().(syscall.WaitStatus); ok && signal.Signaled() {
		how = fmt.Sprintf("by signal %d", signal.Signal())
	}
	return ending{how, p.errors.line()}, state.ExitCode()
}

// lastBytes keeps the last bytes that were written to it.
type lastBytes struct {
	mutex sync.Mutex
	text  []byte
}

func (l *lastBytes) Write(piece []byte) (int, error) {
	l.mutex.Lock()
	defer l.mutex.Unlock()
	l.text = append(l.text, piece...)
	if len(l.text) > 4000 {
		l.text = l.text[len(l.text)-2000:]
	}
	return len(piece), nil
}

func (l *lastBytes) line() string {
	l.mutex.Lock()
	defer l.mutex.Unlock()
	return strings.Join(strings.Fields(string(l.text)), " ")
}
