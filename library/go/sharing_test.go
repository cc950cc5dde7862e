package capkit_test

import (
	"bytes"
	"io"
	"reflect"
	"sync"
	"testing"

	"example.com/capkit"
)

// together runs a function in eight goroutines at once.
func together(run func(number int)) {
	var wait sync.WaitGroup
	for i := 0; i < 8; i++ {
		wait.Add(1)
		go func(number int) {
			defer wait.Done()
			run(number)
		}(i)
	}
	wait.Wait()
}

func TestAnExpressionIsShared(t *testing.T) {
	links := []uint16{capkit.LinkEthernet, capkit.LinkRaw, capkit.LinkCooked, 105, 276}
	for i := 0; i < 300; i++ {
		expression := must(capkit.NewExpression("ip"))
		together(func(number int) {
			for each := range links {
				it := packet(append([]byte{0x45}, make([]byte, 19)...))
				it.LinkType = links[(number+each)%len(links)]
				matches, err := expression.Matches(it)
				if matches != (it.LinkType == capkit.LinkRaw) || (err != nil) != (it.LinkType == 105 || it.LinkType == 276) {
					t.Error(it.LinkType, matches, err)
				}
			}
		})
	}
}

func TestReadersShareAnExpression(t *testing.T) {
	raw := packet(append([]byte{0x45}, make([]byte, 19)...))
	raw.LinkType = capkit.LinkRaw
	capture := written(capkit.Pcapng, packet(arp()), raw, packet(make([]byte, 60)), raw)
	expression := must(capkit.NewExpression("ip"))
	together(func(int) {
		reader := of(bytes.Repeat(capture, 50))
		reader.SetFilter(expression)
		if packets, err := read(reader); len(packets) != 100 || err != io.EOF {
			t.Error(len(packets), err)
		}
	})
}

func TestEachHasAWriter(t *testing.T) {
	capture, packets := capture100()
	together(func(int) {
		for i := 0; i < 20; i++ {
			if again := written(capkit.Pcapng, packets...); !bytes.Equal(again, capture) {
				t.Error(len(again))
			}
		}
	})
}

func TestAFilterIsShared(t *testing.T) {
	filter := must(capkit.Compile("arp", capkit.LinkEthernet))
	text := filter.String()
	together(func(number int) {
		for i := 0; i < 100; i++ {
			trace := filter.Trace(arp(), 42)
			if !filter.Matches(arp(), 42) || len(trace) != 3 || filter.String() != text || filter.Text(2) == "" {
				t.Error(number, trace)
			}
		}
	})
}

// A program compares packets by reflect.DeepEqual, and by go-cmp, which refuses unexported fields.
func TestAPacketThatWasReadEqualsOneThatWasMade(t *testing.T) {
	want := packet(arp())
	want.Comment, want.InterfaceName, want.OriginalLength = "look here", "eth0", 1500
	got := must(of(written(capkit.Pcapng, want)).Next())
	if !reflect.DeepEqual(got, want) {
		t.Errorf("%+v, not %+v", got, want)
	}
	for i := 0; i < reflect.TypeOf(want).NumField(); i++ {
		if field := reflect.TypeOf(want).Field(i); !field.IsExported() {
			t.Error("a hidden field:", field.Name)
		}
	}
}

func TestLengths(t *testing.T) {
	whole, none, empty := packet(arp()), packet(arp()), packet(nil)
	whole.OriginalLength, none.OriginalLength, none.ZeroLength = 0, 0, true
	capture := written(capkit.Pcapng, whole, none, empty)
	got, err := read(of(capture))
	if err != io.EOF || len(got) != 3 {
		t.Fatal(got, err)
	}
	for i, want := range []uint32{42, 0, 0} {
		if got[i].OriginalLength != want || got[i].ZeroLength != (i == 1) {
			t.Errorf("%+v", got[i])
		}
	}
	// What was read is written, and judged, as it was.
	if again := written(capkit.Pcapng, got...); !bytes.Equal(again, capture) {
		t.Error("another length was written")
	}
	long := must(capkit.NewExpression("greater 42"))
	for i, want := range []bool{true, false, false} {
		if matches, err := long.Matches(got[i]); matches != want || err != nil {
			t.Error(i, matches, err)
		}
	}
	reader := of(capture)
	reader.SetFilter(long)
	if kept, err := read(reader); len(kept) != 1 || err != io.EOF {
		t.Error(kept, err)
	}
}
