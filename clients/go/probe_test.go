package jepmon_test

import (
	"context"
	"errors"
	"math/rand"
	"os"
	"strconv"
	"sync"
	"sync/atomic"
	"testing"
	"time"

	"jepmon"
)

// racy is a cas register whose cas looks, takes some hundred nanoseconds, and then writes.
type racy struct{ value, other int64 }

func (r *racy) cas(old, value int64) bool {
	if atomic.LoadInt64(&r.value) != old {
		return false
	}
	for i := 0; i < 300; i++ {
		atomic.LoadInt64(&r.other)
	}
	atomic.StoreInt64(&r.value, value)
	return true
}

const probeClients, probeOperations = 4, 20_000

// TestProbe counts the runs that find the race of a cas, with each way to record. JEPMON_PROBE is the number of runs.
func TestProbe(t *testing.T) {
	runs, _ := strconv.Atoi(os.Getenv("JEPMON_PROBE"))
	if runs == 0 {
		t.Skip("JEPMON_PROBE names no number of runs")
	}
	for _, way := range []struct {
		name string
		find func(t *testing.T) (bool, int)
	}{{"waiting", live(true)}, {"without waiting", live(false)}, {"recorded", recordedRace}} {
		found, events, begun := 0, 0, time.Now()
		for run := 0; run < runs; run++ {
			if is, index := way.find(t); is {
				found++
				events += index
			}
		}
		t.Logf("probe %s: %d of %d runs, %d events until then, %.3f seconds", way.name, found, runs, events/max(found, 1), time.Since(begun).Seconds())
	}
}

func max(a, b int) int { return a + b - min(a, b) }

func drawn(client int) *rand.Rand {
	return rand.New(rand.NewSource(time.Now().UnixNano() + int64(client)))
}

// foundBy says whether the history is illegal, and from which event on.
func foundBy(t *testing.T, err error) (bool, int) {
	var verdict *jepmon.Verdict
	if err == nil {
		return false, 0
	}
	if !errors.As(err, &verdict) || verdict.Status == "refused" {
		t.Fatal(err)
	}
	return verdict.Status == "illegal", verdict.Index
}

func live(wait bool) func(t *testing.T) (bool, int) {
	return func(t *testing.T) (bool, int) {
		monitor := start(t, jepmon.Options{Model: jepmon.CASRegister, Wait: wait, Concurrency: probeClients})
		monitor.Begin(0, 0)
		register := &racy{}
		monitor.Go(probeClients, func(client int) error {
			draw := drawn(client)
			for i := 0; i < probeOperations/probeClients; i++ {
				old, value := int64(draw.Intn(2)), int64(draw.Intn(2))
				operation := monitor.CAS(0, old, value)
				end := operation.Fail
				if operation.Err() == nil && register.cas(old, value) {
					end = operation.OK
				}
				if err := end(); err != nil {
					return err
				}
			}
			return nil
		})
		return foundBy(t, monitor.Close())
	}
}

func recordedRace(t *testing.T) (bool, int) {
	register, begun, zero := &racy{}, time.Now(), int64(0)
	var own [probeClients][]jepmon.RecordedOperation
	var all sync.WaitGroup
	for client := range own {
		all.Add(1)
		go func(client int) {
			defer all.Done()
			draw := drawn(client)
			for i := 0; i < probeOperations/probeClients; i++ {
				input := jepmon.Input{Name: "cas", Value: int64(draw.Intn(2)), New: int64(draw.Intn(2))}
				operation := jepmon.RecordedOperation{ClientId: client, Input: input, Call: int64(time.Since(begun))}
				if !register.cas(input.Value, input.New) {
					operation.Output = jepmon.Failed{}
				}
				operation.Return = int64(time.Since(begun))
				own[client] = append(own[client], operation)
			}
		}(client)
	}
	all.Wait()
	var operations []jepmon.RecordedOperation
	for _, some := range own {
		operations = append(operations, some...)
	}
	options := jepmon.Options{Model: jepmon.CASRegister, Initial: &zero, Out: t.TempDir()}
	return foundBy(t, jepmon.CheckOperations(context.Background(), options, operations))
}
