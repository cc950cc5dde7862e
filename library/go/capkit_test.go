package capkit_test

import (
	"bytes"
	"errors"
	"fmt"
	"io"
	"os"
	"path/filepath"
	"reflect"
	"strings"
	"testing"
	"testing/iotest"
	"time"

	"example.com/capkit"
)

func packet(data []byte) capkit.Packet {
	return capkit.Packet{Time: time.Unix(1700000000, 123456789).UTC(), LinkType: capkit.LinkEthernet,
		Data: data, OriginalLength: uint32(len(data)), SnapLength: 262144}
}

func of(capture []byte) *capkit.Reader { return capkit.NewReader(bytes.NewReader(capture)) }

// check ends the tests if a step that they need fails.
func check(err error) {
	if err != nil {
		panic(err)
	}
}

func must[T any](it T, err error) T {
	check(err)
	return it
}

func written(format capkit.Format, packets ...capkit.Packet) []byte {
	var out bytes.Buffer
	writer := capkit.NewWriter(&out, format)
	for _, it := range packets {
		check(writer.Write(it))
	}
	check(writer.Close())
	return out.Bytes()
}

func read(reader *capkit.Reader) (packets []capkit.Packet, err error) {
	for {
		packet, err := reader.Next()
		if err != nil {
			return packets, err
		}
		packets = append(packets, packet)
	}
}

func TestWhatIsWrittenReadsBack(t *testing.T) {
	named, raw, empty := packet(arp()), packet(arp()[:20]), packet([]byte{})
	named.Comment, named.InterfaceName = "look here", "eth0"
	raw.LinkType, raw.OriginalLength, raw.SnapLength = capkit.LinkRaw, 1500, 20
	packets := []capkit.Packet{packet(arp()), named, raw, empty, named}
	got, err := read(of(written(capkit.Pcapng, packets...)))
	if err != io.EOF || !reflect.DeepEqual(got, packets) {
		t.Errorf("pcapng: %v, %v", got, err)
	}
	got, err = read(of(written(capkit.PcapNanoseconds, packet(arp()), empty)))
	if err != io.EOF || !reflect.DeepEqual(got, []capkit.Packet{packet(arp()), empty}) {
		t.Errorf("pcap with nanoseconds: %v, %v", got, err)
	}
	// Many packets are read by one call, those of one section with its names and comments.
	named.InterfaceName = "eth1"
	capture := append(written(capkit.Pcapng, packets...), written(capkit.Pcapng, named)...)
	got, err = read(of(bytes.Repeat(capture, 100)))
	var want []capkit.Packet
	for i := 0; i < 100; i++ {
		want = append(append(want, packets...), named)
	}
	if err != io.EOF || !reflect.DeepEqual(got, want) {
		t.Errorf("sections: %v, %v", len(got), err)
	}
	got, _ = read(of(written(capkit.Pcap, packet(arp()))))
	if got[0].Time != time.Unix(1700000000, 123456000).UTC() {
		t.Errorf("pcap: %v", got[0].Time)
	}
}

func TestCapturesWithoutPackets(t *testing.T) {
	for format, length := range map[capkit.Format]int{capkit.Pcapng: 28, capkit.Pcap: 24} {
		capture := written(format)
		if packets, err := read(of(capture)); len(capture) != length || packets != nil || err != io.EOF {
			t.Error(format, len(capture), packets, err)
		}
	}
}

func TestRefusedPacketsLeaveTheCapture(t *testing.T) {
	early, late, long, large := packet(arp()), packet(arp()), packet(arp()), packet(make([]byte, 1<<20))
	early.Time, late.Time = time.Unix(-1, 0), time.Unix(1<<34, 0)
	long.Comment = strings.Repeat("c", 65536)
	var out bytes.Buffer
	writer := capkit.NewWriter(&out, capkit.Pcapng)
	for _, it := range []struct {
		packet capkit.Packet
		check  capkit.Code
	}{{early, capkit.ErrTimeOutOfRange}, {late, capkit.ErrTimeOutOfRange}, {long, capkit.ErrBadOption}, {large, capkit.ErrUnitTooLong}} {
		var refused *capkit.WriteError
		if err := writer.Write(it.packet); !errors.As(err, &refused) || !errors.Is(err, it.check) {
			t.Errorf("%v, not %v", err, it.check)
		}
	}
	if err := writer.Close(); err != nil || !bytes.Equal(out.Bytes(), written(capkit.Pcapng)) {
		t.Error(err, out.Len())
	}
	// As many interfaces as capkit writes, and one more.
	writer = capkit.NewWriter(io.Discard, capkit.Pcapng)
	for snap := uint32(0); snap < 4097; snap++ {
		each := packet(arp())
		each.SnapLength = snap
		if err := writer.Write(each); (err != nil) != (snap == 4096) || err != nil && !errors.Is(err, capkit.ErrTooManyOutputInterfaces) {
			t.Error(snap, err)
		}
	}
}

// full is an output that fails once it has that many bytes.
type full struct{ room int }

func (f *full) Write(bytes []byte) (int, error) {
	if len(bytes) > f.room {
		return 0, io.ErrShortWrite
	}
	f.room -= len(bytes)
	return len(bytes), nil
}

func TestAfterAFailedWriteEveryCallFails(t *testing.T) {
	writer := capkit.NewWriter(&full{200}, capkit.Pcapng)
	for i, want := range []error{nil, io.ErrShortWrite} {
		if err := writer.Write(packet(make([]byte, 60))); err != nil {
			t.Error(i, err)
		}
		if err := writer.Flush(); err != want || writer.Written() != 1 {
			t.Error(i, err, writer.Written())
		}
	}
	for _, call := range []func() error{func() error { return writer.Write(packet(nil)) }, writer.Flush, writer.Close} {
		if err := call(); err != io.ErrShortWrite {
			t.Error(err)
		}
	}
	// The call that finds it returns it, however many packets come.
	writer = capkit.NewWriter(&full{200}, capkit.Pcapng)
	count, err := 0, error(nil)
	for ; err == nil; count++ {
		err = writer.Write(packet(make([]byte, 60)))
	}
	if err != io.ErrShortWrite || count > 512 || writer.Written() != 0 || writer.Close() != err {
		t.Error(count, err, writer.Written())
	}
}

func TestFaultsStay(t *testing.T) {
	reader := of([]byte("some text"))
	for i := 0; i < 2; i++ {
		var fault *capkit.CaptureError
		if _, err := reader.Next(); !errors.As(err, &fault) || !errors.Is(err, capkit.ErrNotACaptureFile) {
			t.Error(err)
		}
	}
}

func TestOpen(t *testing.T) {
	name := filepath.Join(t.TempDir(), "-day \xff\n'.pcapng")
	check(os.WriteFile(name, written(capkit.Pcapng, packet(arp()), packet(arp())), 0o666))
	reader := must(capkit.Open(name))
	first := must(reader.Next())
	for i := 0; i < 2; i++ {
		if err := reader.Close(); err != nil {
			t.Error(err)
		}
	}
	// Its bytes are there after Close, and can be changed.
	if first.Data[0] = 1; !bytes.Equal(first.Data[1:], arp()[1:]) {
		t.Error(first)
	}
	if _, err := reader.Next(); !errors.Is(err, os.ErrClosed) {
		t.Error(err)
	}
	if _, err := capkit.Open("missing.pcap"); !errors.Is(err, os.ErrNotExist) {
		t.Error(err)
	}
	if _, err := capkit.Open("/"); err == nil {
		t.Error("a folder was opened")
	}
}

func TestFilteredAsMatchesSays(t *testing.T) {
	raw, udp := packet(append([]byte{0x45}, make([]byte, 19)...)), packet(make([]byte, 60))
	raw.LinkType = capkit.LinkRaw
	capture := written(capkit.Pcapng, packet(arp()), raw, udp, packet(arp()), raw)
	for text, want := range map[string]int{"arp": 2, "ip": 2, "": 5, "len > 41": 3} {
		// In pieces of one byte.
		reader := capkit.NewReader(iotest.OneByteReader(bytes.NewReader(capture)))
		reader.SetFilter(must(capkit.NewExpression(text)))
		if packets, err := read(reader); len(packets) != want || err != io.EOF {
			t.Error(text, len(packets), err)
		}
	}
}

func TestAFilterThatIsSetBetweenPackets(t *testing.T) {
	arp, other := packet(arp()), packet(make([]byte, 60))
	capture := written(capkit.Pcapng, arp, other, arp, other, other, arp)
	// The bytes that come with an error count.
	source := io.MultiReader(bytes.NewReader(capture), iotest.ErrReader(io.ErrNoProgress))
	reader := capkit.NewReader(iotest.DataErrReader(source))
	expression, _ := capkit.NewExpression("arp")
	offset := reader.Offset()
	for i, want := range []capkit.Packet{arp, other, arp, other, arp} {
		reader.SetFilter([]*capkit.Expression{nil, nil, expression, nil, expression}[i])
		if got, err := reader.Next(); err != nil || !bytes.Equal(got.Data, want.Data) || reader.Offset() <= offset {
			t.Error(i, got, err, offset, reader.Offset())
		}
		offset = reader.Offset()
	}
	if _, err := reader.Next(); err != io.ErrNoProgress || offset != int64(len(capture)) {
		t.Error(err, offset)
	}
}

func TestALivePipeGivesEachPacketAsItComes(t *testing.T) {
	source, end, err := os.Pipe()
	check(err)
	capture, first := written(capkit.Pcapng, packet(arp()), packet(arp())), len(written(capkit.Pcapng, packet(arp())))
	reader := capkit.NewReader(source)
	end.Write(capture[:first+20])
	begin := time.Now()
	if _, err := reader.Next(); err != nil || time.Since(begin) > time.Second/5 {
		t.Error(err, time.Since(begin))
	}
	end.Write(capture[first+20 : len(capture)-1])
	end.Close()
	if _, err := reader.Next(); !errors.Is(err, capkit.ErrTruncated) {
		t.Error(err)
	}
}

func TestZeroValues(t *testing.T) {
	var filter capkit.Filter
	var expression capkit.Expression
	var writer capkit.Writer
	var reader capkit.Reader
	if filter.Matches(arp(), 42) || filter.String() != "1\n6 0 0 0\n" || len(filter.Instructions()) != 1 || len(filter.Trace(arp(), 42)) != 1 {
		t.Error("a filter without a program")
	}
	if matches, err := expression.Matches(packet(arp())); !matches || err != nil {
		t.Error(matches, err)
	}
	if _, err := reader.Next(); !errors.Is(err, os.ErrInvalid) {
		t.Error(err)
	}
	if err := writer.Write(packet(arp())); !errors.Is(err, os.ErrInvalid) {
		t.Error(err)
	}
	for _, it := range []*capkit.Writer{capkit.NewWriter(io.Discard, 9), capkit.NewWriter(nil, capkit.Pcapng)} {
		if err := it.Write(packet(arp())); !errors.Is(err, os.ErrInvalid) {
			t.Error(err)
		}
	}
	closed := capkit.NewWriter(io.Discard, capkit.Pcapng)
	if err := closed.Close(); err != nil {
		t.Error(err)
	}
	for _, err := range []error{closed.Write(packet(arp())), closed.Flush()} {
		if !errors.Is(err, os.ErrClosed) {
			t.Error(err)
		}
	}
}

func TestExpressions(t *testing.T) {
	ip := must(capkit.NewExpression("ip"))
	raw := packet(append([]byte{0x45}, make([]byte, 19)...))
	for linkType, want := range map[uint16]bool{capkit.LinkRaw: true, capkit.LinkEthernet: false} {
		raw.LinkType = linkType
		if matches, err := ip.Matches(raw); matches != want || err != nil {
			t.Error(linkType, matches, err)
		}
	}
}

func TestExplain(t *testing.T) {
	long, want := "port 1 or 2", "(src or dst port 1) or (src or dst port 2)"
	for i := 3; i < 400; i++ {
		long += fmt.Sprintf(" or %d", i)
		want = fmt.Sprintf("(%s) or (src or dst port %d)", want, i)
	}
	for text, want := range map[string]string{"": "", "tcp": "tcp", long: want} {
		if got, err := capkit.Explain(text); got != want || err != nil {
			t.Errorf("%.60s: %.60s, %v", text, got, err)
		}
	}
	for text, place := range map[string]int{"prt 80": 1, "tcp ?": 5, "tcp \xff": 5, "tcp port": 0} {
		var refused *capkit.CompileError
		if _, err := capkit.Explain(text); !errors.As(err, &refused) || refused.Place != place {
			t.Errorf("%q: %v", text, err)
		}
	}
}

func TestPrograms(t *testing.T) {
	long, err := capkit.Compile("greater 1000", capkit.LinkEthernet)
	if err != nil || !long.Matches(nil, 1000) || long.Matches(nil, 999) || long.IsPortable() {
		t.Error(err)
	}
	same, err := capkit.FromInstructions(long.Instructions())
	if err != nil || same.String() != long.String() {
		t.Error(err)
	}
	if _, err := capkit.FromInstructions(nil); err == nil {
		t.Error("no instructions were taken")
	}
	if same, err = capkit.FromListing(long.String()); err != nil || same.String() != long.String() {
		t.Error(same, err)
	}
	var wrong *capkit.ListingError
	if _, err := capkit.FromListing("2\n6 0 0 0\n"); !errors.As(err, &wrong) || wrong.Line != 3 || !errors.Is(err, capkit.ErrNotAListing) {
		t.Error(err)
	}
	if _, err := capkit.FromListing("1\n128 0 0 0\n"); !errors.Is(err, capkit.ErrNoReturn) {
		t.Error(err)
	}
}
