// Package jepmontest joins package jepmon to package testing.
package jepmontest

import (
	"context"
	"testing"

	"jepmon"
)

// New starts a monitor that ends with the test. The test fails if the history is not legal: by the verdict, the last events of the
// key, the cause in words if jepmon-judge is there, and the file of the history.
func New(t testing.TB, options ...jepmon.Options) *jepmon.Monitor {
	t.Helper()
	var chosen jepmon.Options
	if len(options) > 0 {
		chosen = options[0]
	}
	ctx, cancel := context.WithCancel(context.Background())
	monitor, err := jepmon.Start(ctx, chosen)
	if err != nil {
		cancel()
		t.Fatalf("jepmon: %v", err)
	}
	t.Cleanup(func() {
		err := monitor.Close()
		cancel()
		counts := monitor.Counts()
		if err != nil {
			t.Errorf("jepmon: %v\n  operations: %v", err, counts)
		} else if !judged(counts) {
			t.Errorf("jepmon: no operation was ok, so nothing was judged: %v", counts)
		}
	})
	return monitor
}

// judged says whether an operation was ok.
func judged(counts map[string]int) bool {
	for what := range counts {
		if len(what) > 3 && what[len(what)-3:] == " ok" {
			return true
		}
	}
	return false
}
