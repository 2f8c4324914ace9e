package jepmon

import (
	"context"
	"errors"
	"fmt"
	"os/exec"
	"regexp"
	"strconv"
	"strings"
	"time"
)

// What a program says of itself: it answers [:hello], or it is older than 1.6, and says its version alone.

const needsMajor, needsMinor = 1, 4 // of the oldest program that this package works with

const patience = time.Minute // for what takes milliseconds, if no machine is busy

// about has the names of the kinds, with a space on each side, and the limits: operations that are open at once, and keys.
type about struct {
	kinds         string
	clients, keys int
}

func (a about) has(kind Model) bool { return strings.Contains(a.kinds, " "+string(kind)+" ") }

var (
	helloLine   = regexp.MustCompile(`^\{:jepmon "([^"]*)" .*\}\n$`)
	kindsOf     = regexp.MustCompile(`:kinds \[([^\]]*)\]`)
	versionLine = regexp.MustCompile(`^jepmon (\S+)\n`)
	numbersOf   = regexp.MustCompile(`^(\d+)\.(\d+)\.\d+$`)
)

// ask asks a program for its version, its kinds and its limits, or says what is wrong with it.
func ask(path string, timeout time.Duration) (about, error) {
	if timeout > patience {
		timeout = patience
	}
	said, _ := output(timeout, "[:hello]\n", path, "script")
	if found := helloLine.FindStringSubmatch(said); found != nil {
		_, err := minorOf(path, found[1])
		kinds := append(kindsOf.FindStringSubmatch(said), "", "")[1]
		return about{" " + strings.ReplaceAll(kinds, ":", "") + " ", limit(said, "max-clients", 64), limit(said, "max-keys", 65536)}, err
	}
	said, err := output(timeout, "", path, "--version")
	if err != nil {
		return about{}, fmt.Errorf("%s can't be used: %v", path, err)
	}
	found := versionLine.FindStringSubmatch(said)
	if found == nil {
		return about{}, fmt.Errorf("%s is no jepmon: its --version prints %.80q", path, said)
	}
	minor, err := minorOf(path, found[1])
	old := about{"", 64, 65536}
	if minor >= 5 {
		old.kinds = " wide-register wide-set "
	}
	return old, err
}

// output runs a program with this input, and gives what it prints.
func output(timeout time.Duration, input, path string, words ...string) (string, error) {
	ctx, cancel := context.WithTimeout(context.Background(), timeout)
	defer cancel()
	command := exec.CommandContext(ctx, path, words...)
	command.Stdin = strings.NewReader(input)
	said, err := command.Output()
	return string(said), err
}

// minorOf gives the minor version, or says that this package does not work with the version.
func minorOf(path, version string) (int, error) {
	if numbers := numbersOf.FindStringSubmatch(version); numbers != nil {
		major, _ := strconv.Atoi(numbers[1])
		minor, _ := strconv.Atoi(numbers[2])
		if major == needsMajor && minor >= needsMinor {
			return minor, nil
		}
	}
	return 0, errors.New(path + " is jepmon " + version + fmt.Sprintf(": this package needs jepmon %d.%d or a later %d", needsMajor, needsMinor, needsMajor))
}

// limit gives the number of this name, if the answer has it.
func limit(said, name string, otherwise int) int {
	found := regexp.MustCompile(":" + name + ` (\d+)[ }]`).FindStringSubmatch(said)
	if found == nil {
		return otherwise
	}
	number, _ := strconv.Atoi(found[1])
	return number
}
