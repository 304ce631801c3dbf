//go:build cgo

package cqlp

import (
	"bytes"
	"io"
	"os/exec"
	"syscall"
	"testing"
	"time"
)

// page is one of bench/pages.py with this many rows: go test -run none -bench .
func page(b *testing.B, kind, rows string) []byte {
	b.Helper()
	stream, err := exec.Command("python3", "../../bench/pages.py", kind, rows).Output()
	if err != nil {
		b.Skip("bench/pages.py needs python3: ", err)
	}
	return stream
}

// processorTime is what the process has used of all processors, its garbage collector too.
func processorTime(b *testing.B) time.Duration {
	b.Helper()
	var used syscall.Rusage
	if err := syscall.Getrusage(syscall.RUSAGE_SELF, &used); err != nil {
		b.Fatal(err)
	}
	return time.Duration(used.Utime.Nano() + used.Stime.Nano())
}

var benchmarks = []struct {
	kind, rows string
	count      int
}{
	{"rows", "200000", 200000},
	{"collections", "40000", 40000},
	{"columns", "1000", 1000},
}

// each measures reading each page: read answers how many rows there were.
func each(b *testing.B, read func(*testing.B, string, []byte) int) {
	for _, row := range benchmarks {
		b.Run(row.kind, func(b *testing.B) {
			stream := page(b, row.kind, row.rows)
			b.SetBytes(int64(len(stream)))
			b.ResetTimer()
			began := processorTime(b)
			for i := 0; i < b.N; i++ {
				if count := read(b, row.kind, stream); count != row.count {
					b.Fatal(count, "rows")
				}
			}
			b.ReportMetric(float64(row.count)*float64(b.N)/(processorTime(b)-began).Seconds(), "rows/cpu-s")
		})
	}
}

// BenchmarkDecode counts the rows by the events of batches.
func BenchmarkDecode(b *testing.B) {
	each(b, func(b *testing.B, _ string, stream []byte) (rows int) {
		d, err := NewDecoder(DefaultLimits())
		if err != nil {
			b.Fatal(err)
		}
		defer d.Close()
		events := make([]Event, 256)
		for err == nil {
			var count, n int
			count, n, err = d.Decode(events, stream)
			stream = stream[n:]
			for i := range events[:count] {
				if e := &events[i]; e.Tag >= TagLeaf && e.Tag <= TagEnter && e.Level == 0 && e.Column == 0 {
					rows++
				}
			}
		}
		if err != ErrMore {
			b.Fatal(err)
		}
		return rows
	})
}

// BenchmarkNext counts the rows by events one by one.
func BenchmarkNext(b *testing.B) {
	each(b, func(b *testing.B, _ string, stream []byte) (rows int) {
		r, err := NewReader(bytes.NewReader(stream), DefaultLimits())
		if err != nil {
			b.Fatal(err)
		}
		defer r.Close()
		for {
			e, err := r.Next()
			if err == io.EOF {
				return rows
			}
			if err != nil {
				b.Fatal(err)
			}
			if e.Tag >= TagLeaf && e.Tag <= TagEnter && e.Level == 0 && e.Column == 0 {
				rows++
			}
		}
	})
}

// BenchmarkColumns counts the rows of batches.
func BenchmarkColumns(b *testing.B) {
	each(b, func(b *testing.B, kind string, stream []byte) (rows int) {
		r, err := NewColumnReader(bytes.NewReader(stream), DefaultLimits(), DefaultBatchLimits())
		if err != nil {
			b.Fatal(err)
		}
		defer r.Close()
		for r.Next() {
			rows += r.Rows()
		}
		if err := r.Err(); err == CodeUnsupported {
			b.Skip(kind, " have items")
		} else if err != nil {
			b.Fatal(err)
		}
		return rows
	})
}

// BenchmarkScan puts the values of each row into variables.
func BenchmarkScan(b *testing.B) {
	var id int32
	var big int64
	var name string
	var is bool
	var list []int32
	var pairs map[string]int32
	wide := make([]any, 200)
	for i := range wide {
		wide[i] = new(int32)
	}
	to := map[string][]any{"rows": {&id, &big, &name, &is}, "collections": {&list, &pairs}, "columns": wide}
	each(b, func(b *testing.B, kind string, stream []byte) (rows int) {
		r, err := NewRowReader(bytes.NewReader(stream), DefaultLimits())
		if err != nil {
			b.Fatal(err)
		}
		defer r.Close()
		for ; r.Next(); rows++ {
			if err := r.Scan(to[kind]...); err != nil {
				b.Fatal(err)
			}
		}
		if r.Err() != nil {
			b.Fatal(r.Err())
		}
		return rows
	})
}

// BenchmarkScanStruct puts the rows into a struct.
func BenchmarkScanStruct(b *testing.B) {
	var row struct {
		ID   int32  `cqlp:"column0"`
		Big  int64  `cqlp:"column1"`
		Name string `cqlp:"column2"`
		Is   bool   `cqlp:"column3"`
	}
	each(b, func(b *testing.B, kind string, stream []byte) (rows int) {
		if kind != "rows" {
			b.Skip(kind, " have other columns")
		}
		r, err := NewRowReader(bytes.NewReader(stream), DefaultLimits())
		if err != nil {
			b.Fatal(err)
		}
		defer r.Close()
		for ; r.Next(); rows++ {
			if err := r.Scan(&row); err != nil {
				b.Fatal(err)
			}
		}
		return rows
	})
}

// BenchmarkValues makes the values of each row.
func BenchmarkValues(b *testing.B) {
	each(b, func(b *testing.B, _ string, stream []byte) (rows int) {
		r, err := NewRowReader(bytes.NewReader(stream), DefaultLimits())
		if err != nil {
			b.Fatal(err)
		}
		defer r.Close()
		for ; r.Next(); rows++ {
			r.Values()
		}
		return rows
	})
}

// BenchmarkFrames reads a small request with its header and its reply, as a server and a client do.
func BenchmarkFrames(b *testing.B) {
	stream, err := AppendMessage(nil, 1, &Query{Query: "SELECT a FROM k.t WHERE b = ?", Parameters: Parameters{Values: []Value{{Bytes: []byte("x")}}}})
	if err != nil {
		b.Fatal(err)
	}
	stream = bytes.Repeat(stream, 1000)
	b.SetBytes(int64(len(stream)))
	began := processorTime(b)
	for i := 0; i < b.N; i++ {
		f, err := NewFrames(bytes.NewReader(stream), DefaultLimits())
		if err != nil {
			b.Fatal(err)
		}
		for err == nil {
			_, err = f.Next()
		}
		f.Close()
	}
	b.ReportMetric(1000*float64(b.N)/(processorTime(b)-began).Seconds(), "frames/cpu-s")
}
