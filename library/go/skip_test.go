package capkit_test

import (
	"bytes"
	"encoding/binary"
	"errors"
	"io"
	"reflect"
	"testing"
	"testing/iotest"

	"example.com/capkit"
)

// block is a block of a little-endian pcapng file.
func block(kind uint32, body ...byte) []byte {
	length := uint32(len(body) + 12)
	it := make([]byte, 8, length)
	binary.LittleEndian.PutUint32(it, kind)
	binary.LittleEndian.PutUint32(it[4:], length)
	return append(append(it, body...), it[4:8]...)
}

// withLateRecord is a pcap capture of packets, of which these have a fraction of 1,000,000 microseconds.
func withLateRecords(packets []capkit.Packet, late ...int) []byte {
	capture := written(capkit.Pcap, packets...)
	for _, number := range late {
		at := len(written(capkit.Pcap, packets[:number]...))
		binary.LittleEndian.PutUint32(capture[at+4:], 1000000)
	}
	return capture
}

// longName is a pcapng capture of three packets, those of an interface with a name of 256 bytes in the middle.
func longName() (capture []byte, first, last capkit.Packet) {
	first, last = packet(arp()), packet(arp()[:20])
	first.InterfaceName, last.InterfaceName = "one", "three"
	other := packet(arp())
	other.InterfaceName = "two"
	capture = written(capkit.Pcapng, first, other, last)
	name := append([]byte{2, 0, 3, 0}, "two\x00"...)
	long := append([]byte{2, 0, 0, 1}, bytes.Repeat([]byte("n"), 256)...)
	at := bytes.Index(capture, name)
	begin := at - 16
	length := binary.LittleEndian.Uint32(capture[begin+4:])
	body := append(append(append([]byte{}, capture[begin+8:at]...), long...), capture[at+len(name):begin+int(length)-4]...)
	return append(append(append([]byte{}, capture[:begin]...), block(1, body...)...), capture[begin+int(length):]...), first, last
}

func microseconds(packets ...capkit.Packet) []capkit.Packet {
	got, _ := read(of(written(capkit.Pcap, packets...)))
	return got
}

func TestWhatIsRefusedIsSkipped(t *testing.T) {
	_, many := capture100()
	sound := microseconds(many...)
	long, first, last := longName()
	for name, it := range map[string]struct {
		capture []byte
		want    []capkit.Packet
		fault   capkit.Code
		skipped uint64
	}{
		"times":  {withLateRecords(many, 0, 50, 51, 99), append(append([]capkit.Packet{}, sound[1:50]...), sound[52:99]...), capkit.ErrTimeOutOfRange, 4},
		"name":   {long, []capkit.Packet{first, last}, capkit.ErrBadOption, 2},
		"sound":  {written(capkit.Pcapng, many...), many, 0, 0},
		"nobody": {withLateRecords(many[:1], 0), nil, capkit.ErrTimeOutOfRange, 1},
	} {
		for _, source := range []io.Reader{bytes.NewReader(it.capture), iotest.OneByteReader(bytes.NewReader(it.capture)), iotest.DataErrReader(bytes.NewReader(it.capture))} {
			reader := capkit.NewReader(source)
			reader.SkipRefused(true)
			got, err := read(reader)
			if err != io.EOF || !reflect.DeepEqual(got, it.want) || reader.Skipped() != it.skipped || reader.Offset() != int64(len(it.capture)) {
				t.Error(name, len(got), err, reader.Skipped(), reader.Offset())
			}
		}
		// By default it ends there.
		reader := of(it.capture)
		if _, err := read(reader); it.fault != 0 && !errors.Is(err, it.fault) || reader.Skipped() != 0 {
			t.Error(name, err, reader.Skipped())
		}
	}
}

func TestWhatCannotBeSkipped(t *testing.T) {
	_, many := capture100()
	capture := withLateRecords(many, 99)
	for name, it := range map[string]struct {
		capture []byte
		fault   capkit.Code
		packets int
	}{
		"a late record that is cut": {capture[:len(capture)-1], capkit.ErrTimeOutOfRange, 99},
		"a cut record":              {capture[:len(capture)-4000], capkit.ErrTruncated, 98},
		"a text":                    {[]byte("some text"), capkit.ErrNotACaptureFile, 0},
		"three bytes":               {[]byte{0xd4, 0xc3, 0xb2}, capkit.ErrNotACaptureFile, 0},
	} {
		reader := of(it.capture)
		reader.SkipRefused(true)
		for i := 0; i < 2; i++ {
			packets, err := read(reader)
			if !errors.Is(err, it.fault) || len(packets) != it.packets || reader.Skipped() != 0 {
				t.Error(name, len(packets), err, reader.Skipped())
			}
			it.packets = 0
		}
	}
}

func TestLinkTypesThatAreNotFilteredAreSkipped(t *testing.T) {
	null, raw := packet(arp()), packet(append([]byte{0x45}, make([]byte, 19)...))
	null.LinkType, raw.LinkType = 276, capkit.LinkRaw
	capture := bytes.Repeat(written(capkit.Pcapng, null, packet(arp()), null, raw, null, null, packet(arp())), 50)
	for text, want := range map[string]int{"arp": 100, "ip": 50, "": 350} {
		reader := of(capture)
		reader.SetFilter(must(capkit.NewExpression(text)))
		reader.SkipRefused(true)
		packets, err := read(reader)
		skipped := uint64(200)
		if text == "" { // it is compiled for any link type
			skipped = 0
		}
		if len(packets) != want || err != io.EOF || reader.Skipped() != skipped {
			t.Error(text, len(packets), err, reader.Skipped())
		}
		for _, it := range packets {
			if text != "" && it.LinkType == 276 {
				t.Error(text, it)
			}
		}
	}
	// If a filter is set between packets, those that weren't given yet aren't counted.
	reader := of(capture)
	reader.SkipRefused(true)
	reader.SetFilter(must(capkit.NewExpression("arp")))
	must(reader.Next())
	if reader.Skipped() != 1 {
		t.Error(reader.Skipped())
	}
	reader.SetFilter(nil)
	if packets, err := read(reader); len(packets) != 348 || err != io.EOF || reader.Skipped() != 1 {
		t.Error(len(packets), err, reader.Skipped())
	}
	reader = of(capture)
	reader.SetFilter(must(capkit.NewExpression("arp")))
	for i := 0; i < 2; i++ {
		if _, err := reader.Next(); !errors.Is(err, capkit.ErrLinkType) {
			t.Error(err)
		}
	}
}
