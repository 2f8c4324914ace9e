package jepmon_test

import (
	"context"
	"fmt"
	"testing"
	"time"

	"jepmon"
)

// BenchmarkOperation measures operations, each of two events: a write or a read of a key of the goroutine's own.
func BenchmarkOperation(b *testing.B) {
	for _, wait := range []bool{false, true} {
		for _, clients := range []int{1, 5, 50} {
			b.Run(fmt.Sprintf("wait=%v/goroutines=%d", wait, clients), func(b *testing.B) {
				monitor, err := jepmon.Start(context.Background(), jepmon.Options{Wait: wait, Out: b.TempDir()})
				if err != nil {
					b.Fatal(err)
				}
				begun := time.Now()
				for left := b.N; left > 0; left -= 500_000 { // a history has 1,048,576 events
					if err := measure(monitor, clients, min(left, 500_000)); err != nil {
						b.Fatal(err)
					}
				}
				if err := monitor.Close(); err != nil {
					b.Fatal(err)
				}
				b.ReportMetric(2*float64(b.N)/time.Since(begun).Seconds(), "events/s")
			})
		}
	}
}

func min(a, b int) int {
	if a < b {
		return a
	}
	return b
}

func measure(monitor *jepmon.Monitor, clients, operations int) error {
	err := monitor.Go(clients, func(client int) error {
		for i := 0; i < operations/clients; i++ {
			key := client*64 + i/2%64
			if i%2 == 0 {
				if err := monitor.Write(key, int64(i)).OK(); err != nil {
					return err
				}
			} else if err := monitor.Read(key).Value(int64(i-1), nil); err != nil {
				return err
			}
		}
		return nil
	})
	if err != nil {
		return err
	}
	return monitor.Reset()
}
