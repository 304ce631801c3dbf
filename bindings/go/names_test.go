//go:build cgo

package cqlp

import (
	"fmt"
	"os"
	"strings"
	"testing"
)

func TestNamesAreThoseOfTheSources(t *testing.T) {
	text, err := os.ReadFile("../names.txt")
	if err != nil {
		t.Fatal(err)
	}
	var words []string
	for _, line := range strings.Split(string(text), "\n") {
		if word, _, found := strings.Cut(line, " "); found && (len(words) == 0 || words[len(words)-1] != word) {
			words = append(words, word)
		}
	}
	var said strings.Builder
	for i, word := range words {
		for number := int64(-300); number < 1<<14; number++ {
			if name, known := Name(Group(i+1), number); known {
				fmt.Fprintln(&said, word, number, name)
			}
		}
	}
	if said.String() != string(text) {
		t.Fatal(said.String())
	}
	for _, group := range []Group{0, Group(len(words) + 1), 1<<32 - 1} {
		if name, known := Name(group, 1); known {
			t.Fatal(group, name)
		}
	}
}

func TestVersion(t *testing.T) {
	header, err := os.ReadFile("../../include/cqlp.h")
	if err != nil {
		t.Fatal(err)
	}
	for _, line := range []string{fmt.Sprintf("CQLP_VERSION %q\n", Version()), fmt.Sprintf("CQLP_VERSION_NUMBER %d ", VersionNumber())} {
		if !strings.Contains(string(header), "#define "+line) {
			t.Fatal(line)
		}
	}
}
