package jepmon_test

import (
	"context"
	"errors"
	"fmt"
	"os"
	"path/filepath"
	"strings"
	"syscall"
	"testing"

	"jepmon"
	"jepmon/jepmontest"
)

func start(t *testing.T, options jepmon.Options) *jepmon.Monitor {
	t.Helper()
	options.Out = t.TempDir()
	monitor, err := jepmon.Start(context.Background(), options)
	if err != nil {
		t.Fatal(err)
	}
	return monitor
}

func TestErrorsOfTheStore(t *testing.T) {
	monitor := jepmontest.New(t)
	monitor.Write(1, 1).Done(context.DeadlineExceeded)
	monitor.Write(1, 2).Done(fmt.Errorf("put: %w", syscall.ECONNREFUSED))
	monitor.Write(1, 3).Done(fmt.Errorf("put: %w", jepmon.ErrFailed))
	monitor.Write(2, 4).Done(nil)
	monitor.Read(1).Value(0, context.DeadlineExceeded)
	want := map[string]int{"write info": 1, "write fail": 2, "write ok": 1, "read info": 1}
	if got := monitor.Counts(); fmt.Sprint(got) != fmt.Sprint(want) {
		t.Errorf("the counts are %v", got)
	}
}

func TestVerdictStopsTheTest(t *testing.T) {
	monitor := start(t, jepmon.Options{Wait: true})
	monitor.Write(7, 1).OK()
	err := monitor.Read(7).Value(2, nil)
	var verdict *jepmon.Verdict
	if !errors.As(err, &verdict) || verdict.Status != "illegal" || verdict.Key != 7 || verdict.Index != 5 {
		t.Fatalf("the read gave %v", err)
	}
	if last := verdict.Tail[len(verdict.Tail)-1]; !strings.HasPrefix(last, "5 {:type :ok") {
		t.Errorf("the tail ends with %s", last)
	}
	if monitor.Context().Err() == nil {
		t.Error("the context goes on")
	}
	if next := monitor.Write(7, 3); !errors.Is(next.Err(), verdict) || !errors.Is(next.OK(), verdict) {
		t.Errorf("the next operation says %v", next.Err())
	}
	if err := monitor.Close(); !errors.As(err, &verdict) || verdict.Index != 5 {
		t.Errorf("Close says %v", err)
	}
	text, err := os.ReadFile(verdict.History)
	if err != nil || strings.Count(string(text), "\n") != 6 {
		t.Errorf("the history is %s, %v", text, err)
	}
}

func TestOperationsThatEndTwice(t *testing.T) {
	monitor := start(t, jepmon.Options{})
	write := monitor.Write(1, 1)
	if write.OK() != nil || write.OK() == nil || write.Info() == nil {
		t.Error("an operation ended twice")
	}
	if err := monitor.Close(); err != nil {
		t.Error(err)
	}
	if err := monitor.Write(1, 2).OK(); !errors.Is(err, jepmon.ErrClosed) {
		t.Errorf("after Close: %v", err)
	}
}

func TestContextThatIsDone(t *testing.T) {
	ctx, cancel := context.WithCancel(context.Background())
	monitor, err := jepmon.Start(ctx, jepmon.Options{Out: t.TempDir()})
	if err != nil {
		t.Fatal(err)
	}
	monitor.Write(1, 1).OK()
	cancel()
	if err := monitor.Write(1, 2).Err(); !errors.Is(err, context.Canceled) {
		t.Errorf("an operation began: %v", err)
	}
	if err := monitor.Close(); err != nil {
		t.Error(err)
	}
}

// A judge that is there says the cause in words.
func TestCause(t *testing.T) {
	judge := filepath.Join(t.TempDir(), "jepmon-judge")
	report := `{"bad_keys": [{"cause": {"headline": "Client 0 read 2.", "sentences": ["It held \"1\"."]}}]}`
	if err := os.WriteFile(judge, []byte("#!/bin/sh\ncat <<'END'\n"+report+"\nEND\nexit 1\n"), 0o755); err != nil {
		t.Fatal(err)
	}
	t.Setenv("JEPMON_JUDGE", judge)
	monitor := start(t, jepmon.Options{})
	monitor.Write(7, 1).OK()
	monitor.Read(7).Value(2, nil)
	var verdict *jepmon.Verdict
	if err := monitor.Close(); !errors.As(err, &verdict) || verdict.Cause != "Client 0 read 2.\n    It held \"1\"." {
		t.Errorf("Close says %v", err)
	}
}
