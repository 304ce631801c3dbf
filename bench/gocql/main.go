// Times gocql's Scan, and the readers of bindings/go, over the same page in memory, in turn: gocql KIND FILE ROUNDS. A line has the name of each, the rows that
// it read, and the least milliseconds of the processor for a million rows, the garbage collector's too. bench/wrappers.py builds it.
package main

import (
	"bytes"
	"fmt"
	"io"
	"math"
	"os"
	"reflect"
	"runtime"
	"strconv"
	"syscall"
	"time"

	"github.com/gocql/gocql"

	cqlp "top/bindings/go"
)

// A reader puts the values of each row of a page into variables, which row looks at, and says how many rows there were.
type reader struct {
	name string
	read func(page []byte, to []any, row func()) (int, error)
}

// compare takes the first two.
var readers = []reader{
	{"gocql's Scan", readByGocql},
	{"Scan", readByScan},
	{"Scan of a struct", readByStruct},
	{"Values", readByValues},
	{"ColumnReader", readByColumns},
	{"Decode", readByDecode},
	{"Next", readByNext},
}

func readByGocql(page []byte, to []any, row func()) (int, error) {
	iter, err := gocql.IterOf(bytes.NewReader(page))
	if err != nil {
		return 0, err
	}
	rows := 0
	for iter.Scan(to...) {
		row()
		rows++
	}
	return rows, iter.Close()
}

func readByScan(page []byte, to []any, row func()) (int, error) {
	return readRows(page, func(r *cqlp.RowReader) error {
		err := r.Scan(to...)
		row()
		return err
	})
}

// readRows calls a function at each row, and says how many there were.
func readRows(page []byte, each func(*cqlp.RowReader) error) (int, error) {
	r, err := cqlp.NewRowReader(bytes.NewReader(page), cqlp.DefaultLimits())
	if err != nil {
		return 0, err
	}
	defer r.Close()
	rows := 0
	for ; r.Next(); rows++ {
		if err := each(r); err != nil {
			return 0, err
		}
	}
	return rows, r.Err()
}

// readByValues lets row alone: the values are in no variables.
func readByValues(page []byte, _ []any, _ func()) (int, error) {
	return readRows(page, func(r *cqlp.RowReader) error {
		r.Values()
		return nil
	})
}

// beginsRow says whether a row begins with an event.
func beginsRow(e *cqlp.Event) bool {
	return e.Tag >= cqlp.TagLeaf && e.Tag <= cqlp.TagEnter && e.Level == 0 && e.Column == 0
}

func readByDecode(page []byte, _ []any, _ func()) (int, error) {
	d, err := cqlp.NewDecoder(cqlp.DefaultLimits())
	if err != nil {
		return 0, err
	}
	defer d.Close()
	events := make([]cqlp.Event, 256)
	rows := 0
	for err == nil {
		var count, n int
		count, n, err = d.Decode(events, page)
		page = page[n:]
		for i := range events[:count] {
			if beginsRow(&events[i]) {
				rows++
			}
		}
	}
	if err == cqlp.ErrMore {
		return rows, nil
	}
	return rows, err
}

func readByNext(page []byte, _ []any, _ func()) (int, error) {
	r, err := cqlp.NewReader(bytes.NewReader(page), cqlp.DefaultLimits())
	if err != nil {
		return 0, err
	}
	defer r.Close()
	rows := 0
	for {
		e, err := r.Next()
		if err == io.EOF {
			return rows, nil
		}
		if err != nil {
			return rows, err
		}
		if beginsRow(&e) {
			rows++
		}
	}
}

// readByColumns lets row alone: it has the values of a batch at once.
func readByColumns(page []byte, _ []any, _ func()) (int, error) {
	r, err := cqlp.NewColumnReader(bytes.NewReader(page), cqlp.DefaultLimits(), cqlp.DefaultBatchLimits())
	if err != nil {
		return 0, err
	}
	defer r.Close()
	rows := 0
	for r.Next() {
		rows += r.Rows()
	}
	return rows, r.Err()
}

// readByStruct has the struct instead of variables, and one for the rows of four columns alone.
func readByStruct(page []byte, to []any, _ func()) (int, error) {
	var found struct {
		ID   int32  `cqlp:"column0"`
		Big  int64  `cqlp:"column1"`
		Name string `cqlp:"column2"`
		Is   bool   `cqlp:"column3"`
	}
	if len(to) != 4 {
		return 0, cqlp.CodeUnsupported
	}
	return readByScan(page, []any{&found}, func() {})
}

// variables are those that a row of a page of bench/pages.py goes into.
func variables(kind string) []any {
	switch kind {
	case "rows":
		return []any{new(int32), new(int64), new(string), new(bool)}
	case "collections":
		return []any{new([]int32), new(map[string]int32)}
	}
	wide := make([]any, 200)
	for i := range wide {
		wide[i] = new(int32)
	}
	return wide
}

// processorTime is what the process has used of all processors.
func processorTime() time.Duration {
	var used syscall.Rusage
	if err := syscall.Getrusage(syscall.RUSAGE_SELF, &used); err != nil {
		fail(err)
	}
	return time.Duration(used.Utime.Nano() + used.Stime.Nano())
}

func fail(err error) {
	fmt.Fprintln(os.Stderr, err)
	os.Exit(1)
}

// compare fails where the two Scans put other values.
func compare(kind string, page []byte) (rows int) {
	var all [2][]string
	for i, r := range readers[:2] {
		to := variables(kind)
		_, err := r.read(page, to, func() {
			row := ""
			for _, v := range to {
				row += fmt.Sprint(reflect.ValueOf(v).Elem().Interface(), " ")
			}
			if len(all[i]) < 1000 {
				all[i] = append(all[i], row)
			}
			rows++
		})
		if err != nil {
			fail(err)
		}
	}
	if rows == 0 || !reflect.DeepEqual(all[0], all[1]) {
		fail(fmt.Errorf("%s: the values differ", kind))
	}
	return rows / 2
}

// timed is how long it takes to read the page once, or infinite where it is not read so.
func timed(r reader, kind string, page []byte, rows int) float64 {
	to := variables(kind)
	runtime.GC()
	began := processorTime()
	count, err := r.read(page, to, func() {})
	spent := processorTime() - began
	if err == cqlp.CodeUnsupported {
		return math.Inf(1)
	}
	if err != nil || count != rows {
		fail(fmt.Errorf("%s: %d rows, %v", r.name, count, err))
	}
	return spent.Seconds() * 1e3 * 1e6 / float64(rows)
}

func main() {
	kind := os.Args[1]
	page, err := os.ReadFile(os.Args[2])
	if err != nil {
		fail(err)
	}
	rounds, err := strconv.Atoi(os.Args[3])
	if err != nil {
		fail(err)
	}
	rows := compare(kind, page)
	least := make([]float64, len(readers))
	for i := range least {
		least[i] = math.Inf(1)
	}
	for n := 0; n < rounds; n++ {
		for i, r := range readers {
			least[i] = math.Min(least[i], timed(r, kind, page, rows))
		}
	}
	for i, r := range readers {
		if !math.IsInf(least[i], 1) {
			fmt.Printf("%s\t%d\t%f\n", r.name, rows, least[i])
		}
	}
}
