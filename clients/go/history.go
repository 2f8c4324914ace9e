package jepmon

import (
	"bytes"
	"context"
	"encoding/json"
	"fmt"
	"os"
	"os/exec"
	"path/filepath"
	"regexp"
	"strconv"
	"strings"
	"time"
)

// verdictOf takes a reply apart, if it is `illegal` or `unknown`.
func verdictOf(reply string) (*Verdict, bool) {
	words := strings.Split(reply, " ")
	if len(words) != 5 || words[0] != "illegal" && words[0] != "unknown" || words[1] != "key" || words[3] != "index" {
		return nil, false
	}
	key, err := strconv.Atoi(words[2])
	index, err2 := strconv.Atoi(words[4])
	return &Verdict{Status: words[0], Key: key, Index: index, Reply: reply}, err == nil && err2 == nil
}

// events gives the pieces without commands, each of which is a line that begins with `[:`.
func events(pieces ...[]byte) [][]byte {
	var all [][]byte
	for _, piece := range pieces {
		for at := bytes.Index(piece, []byte("[:")); at >= 0; at = bytes.Index(piece, []byte("[:")) {
			all = append(all, piece[:at])
			piece = piece[at+bytes.IndexByte(piece[at:], '\n')+1:]
		}
		all = append(all, piece)
	}
	return all
}

// tail gives the last events of the verdict's key, each after its index.
func tail(pieces [][]byte, verdict *Verdict) []string {
	const most = 12
	var last []string
	of, index := []byte(fmt.Sprintf(" :value [%d ", verdict.Key)), 0
	for _, piece := range pieces {
		for len(piece) > 0 && index <= verdict.Index {
			at := bytes.IndexByte(piece, '\n')
			if line := piece[:at]; bytes.Contains(line, of) {
				last = append(last, fmt.Sprintf("%d %s", index, line))
			}
			piece = piece[at+1:]
			index++
		}
	}
	if len(last) > most {
		last = last[len(last)-most:]
	}
	return last
}

// hint says what helps if a key is over its budget.
func hint(verdict *Verdict, o Options, p *program) string {
	if verdict.Status != "unknown" {
		return ""
	}
	text := fmt.Sprintf("key %d has more outcomes than its budget: raise Budget, let fewer clients use one key, or write to a new key after timeouts", verdict.Key)
	switch kind := wide[o.Model]; {
	case p.byEnds[verdict.Key]:
		text += equalValues
	case kind == "" || kind == p.kind:
	case o.ByEnds:
		text += ". Without ByEnds the kind " + string(kind) + " may decide it"
	default:
		text += fmt.Sprintf(". %s does not have the kind %s: a newer jepmon may decide it", p.path, kind)
	}
	return text
}

// withCause adds, once, what is known at the end of the verdict's history. It writes the history to a file. It asks the program for the
// other keys over their budget, and jepmon-judge for the cause in words, if it is there.
func withCause(verdict Verdict, o Options, p *program, pieces [][]byte) *Verdict {
	if verdict.reported || verdict.Index < 0 && len(pieces) == 0 {
		return &verdict
	}
	verdict.reported = true
	file, err := os.CreateTemp(o.Out, "jepmon-*.edn")
	if err != nil {
		return &verdict
	}
	defer file.Close()
	for _, piece := range pieces {
		file.Write(piece)
	}
	verdict.History, _ = filepath.Abs(file.Name())
	switch {
	case verdict.Status == "illegal":
		verdict.Cause = cause(verdict.History, o, p)
	case verdict.Status == "unknown" && o.GoOn:
		verdict.Also = over(verdict, o, p)
	}
	return &verdict
}

var overLine = regexp.MustCompile(`(?m)^key (\d+) .* status over (\d+)$`)

// over gives the keys over their budget other than the verdict's. `script` names the first one alone.
func over(verdict Verdict, o Options, p *program) []string {
	others := p.over(verdict, o, p.kind)
	if len(p.byEnds) > 0 {
		others = append(others, p.over(verdict, o, o.Model)...)
	}
	return others
}

// over gives those of the keys that are judged by this kind.
func (p *program) over(verdict Verdict, o Options, kind Model) []string {
	said, _ := exec.Command(p.path, append([]string{"check", verdict.History}, o.words(kind)...)...).Output()
	var others []string
	for _, line := range overLine.FindAllSubmatch(said, -1) {
		key, _ := strconv.Atoi(string(line[1]))
		if key != verdict.Key && p.byEnds[key] == (kind != p.kind) {
			others = append(others, fmt.Sprintf("unknown key %d index %s", key, line[2]))
		}
	}
	return others
}

func cause(history string, o Options, p *program) string {
	judge := findJudge(p.path)
	if judge == "" {
		return ""
	}
	ctx, cancel := context.WithTimeout(context.Background(), time.Minute)
	defer cancel()
	command := exec.CommandContext(ctx, judge, history, "--json", "--model", string(o.Model), "--concurrency", strconv.Itoa(o.Concurrency))
	command.Env = append(os.Environ(), "JEPMON="+p.path)
	text, _ := command.Output()
	var report struct {
		BadKeys []struct {
			Cause struct {
				Headline  string
				Sentences []string
			}
		} `json:"bad_keys"`
	}
	if json.Unmarshal(text, &report) != nil || len(report.BadKeys) == 0 {
		return ""
	}
	of := report.BadKeys[0].Cause
	return strings.Join(append([]string{of.Headline}, of.Sentences...), "\n    ")
}

// findJudge gives the path of jepmon-judge: the one that JEPMON_JUDGE names (`no` is none), else the one beside the program or in its
// clone, else the one on the PATH.
func findJudge(program string) string {
	if named := os.Getenv("JEPMON_JUDGE"); named != "" {
		return strings.TrimSuffix(named, "no")
	}
	candidates := []string{filepath.Join(filepath.Dir(program), "jepmon-judge"), filepath.Join(filepath.Dir(filepath.Dir(program)), "jepmon-judge")}
	for _, path := range candidates {
		if info, err := os.Stat(path); err == nil && info.Mode()&0o111 != 0 {
			return path
		}
	}
	found, _ := exec.LookPath("jepmon-judge")
	return found
}
