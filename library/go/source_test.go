package capkit_test

import (
	"bytes"
	"errors"
	"io"
	"math/rand"
	"net"
	"os"
	"reflect"
	"testing"
	"time"

	"example.com/capkit"
)

// capture100 is a capture, and its packets, each of which has another length.
func capture100() ([]byte, []capkit.Packet) {
	var packets []capkit.Packet
	for i := 0; i < 100; i++ {
		it := packet(bytes.Repeat([]byte{byte(i)}, 1+37*i))
		it.Comment = "first"[:i%6]
		packets = append(packets, it)
	}
	return written(capkit.Pcapng, packets...), packets
}

// step is what a source gives at one read: at most this many bytes, and an error.
type step struct {
	most int
	err  error
}

// steps is a source that gives a capture by such reads, and the rest at once.
type steps struct {
	bytes.Reader
	steps []step
}

func (s *steps) Read(room []byte) (int, error) {
	if len(s.steps) == 0 {
		return s.Reader.Read(room)
	}
	it := s.steps[0]
	s.steps = s.steps[1:]
	if it.most < len(room) {
		room = room[:it.most]
	}
	count, _ := s.Reader.Read(room)
	return count, it.err
}

func from(capture []byte, each ...step) *capkit.Reader {
	source := &steps{steps: each}
	source.Reset(capture)
	return capkit.NewReader(source)
}

// readOn reads on after errors of the source, which it gives too.
func readOn(reader *capkit.Reader) (packets []capkit.Packet, failures []error, err error) {
	for {
		more, err := read(reader)
		packets = append(packets, more...)
		var fault *capkit.CaptureError
		if err == io.EOF || errors.As(err, &fault) {
			return packets, failures, err
		}
		failures = append(failures, err)
	}
}

func TestADeadlineDoesNotEndAReader(t *testing.T) {
	capture, packets := capture100()
	for name, pair := range map[string]func() (io.ReadCloser, io.WriteCloser){
		"pipe": func() (io.ReadCloser, io.WriteCloser) {
			source, end, err := os.Pipe()
			check(err)
			return source, end
		},
		"connection": func() (io.ReadCloser, io.WriteCloser) {
			source, end := net.Pipe()
			return source, end
		},
	} {
		source, end := pair()
		reader := capkit.NewReader(source)
		done := make(chan struct{})
		for at := 0; at < len(capture); {
			piece := capture[at:]
			if len(piece) > 70000 {
				piece = piece[:70000]
			}
			at += len(piece)
			go func() { // what a pipe doesn't hold is written as it is read
				end.Write(piece)
				done <- struct{}{}
			}()
			for len(packets) > 0 {
				check(source.(interface{ SetReadDeadline(time.Time) error }).SetReadDeadline(time.Now().Add(20 * time.Millisecond)))
				got, err := reader.Next()
				if errors.Is(err, os.ErrDeadlineExceeded) {
					break
				}
				if err != nil || !reflect.DeepEqual(got, packets[0]) {
					t.Fatal(name, len(packets), err)
				}
				packets = packets[1:]
			}
			<-done
		}
		check(source.(interface{ SetReadDeadline(time.Time) error }).SetReadDeadline(time.Time{}))
		end.Close()
		rest, err := read(reader)
		if err != io.EOF || len(rest) != len(packets) {
			t.Error(name, len(rest), err)
		}
		_, packets = capture100()
	}
}

func TestErrorsOfASourceAreToldOnce(t *testing.T) {
	capture, packets := capture100()
	failed := errors.New("failed")
	reader := from(capture, step{3, failed}, step{0, failed}, step{len(capture) / 2, nil}, step{1000, failed}, step{0, os.ErrDeadlineExceeded})
	got, failures, err := readOn(reader)
	if want := []error{failed, failed, failed, os.ErrDeadlineExceeded}; !reflect.DeepEqual(failures, want) {
		t.Error(failures)
	}
	if err != io.EOF || !reflect.DeepEqual(got, packets) {
		t.Error(len(got), err)
	}
	// An error that comes with the last bytes, and one after them.
	if got, failures, err := readOn(from(capture, step{len(capture), failed})); err != io.EOF || len(got) != 100 || len(failures) != 1 {
		t.Error(len(got), failures, err)
	}
	if got, err := read(from(capture, step{len(capture), io.EOF})); err != io.EOF || !reflect.DeepEqual(got, packets) {
		t.Error(len(got), err)
	}
	// A capture that is cut never ends cleanly, whatever came before.
	if got, failures, err := readOn(from(capture[:len(capture)-1], step{50, failed})); !errors.Is(err, capkit.ErrTruncated) || len(got) != 99 || len(failures) != 1 {
		t.Error(len(got), failures, err)
	}
}

func TestASourceThatGivesNothing(t *testing.T) {
	capture, packets := capture100()
	var empty []step
	for i := 0; i < 150; i++ {
		empty = append(empty, step{0, nil})
	}
	got, failures, err := readOn(from(capture, append(empty, step{500, nil}, step{0, nil}, step{0, nil})...))
	if err != io.EOF || !reflect.DeepEqual(got, packets) || !reflect.DeepEqual(failures, []error{io.ErrNoProgress}) {
		t.Error(len(got), failures, err)
	}
}

// wrong is a source that says it gave more than there is room for.
type wrong struct{}

func (wrong) Read(room []byte) (int, error) { return len(room) + 1, nil }

func TestASourceThatLies(t *testing.T) {
	defer func() {
		if recover() == nil {
			t.Error("bytes that aren't there were read")
		}
	}()
	capkit.NewReader(wrong{}).Next()
}

func TestPiecesAndFailuresAtRandom(t *testing.T) {
	capture, packets := capture100()
	random := rand.New(rand.NewSource(1))
	expression := must(capkit.NewExpression("len > 1000"))
	for round := 0; round < 200; round++ {
		var each []step
		failures := 0
		for left := len(capture); left > 0; {
			it := step{random.Intn(1 << random.Intn(17)), nil}
			if random.Intn(3) == 0 {
				it.err = os.ErrDeadlineExceeded
				failures++
			}
			each = append(each, it)
			left -= it.most
		}
		reader, want := from(capture, each...), packets
		if round%2 == 1 {
			reader.SetFilter(expression)
			want = packets[28:]
		}
		got, failed, err := readOn(reader)
		if err != io.EOF || len(failed) != failures || !reflect.DeepEqual(got, want) {
			t.Fatal(round, len(got), len(failed), failures, err)
		}
		if offset := reader.Offset(); offset != int64(len(capture)) {
			t.Error(offset)
		}
	}
}

// part is an output that takes at most a number of bytes of each write, and returns it, with an error or without.
type part struct {
	bytes.Buffer
	most int
	err  error
}

func (p *part) Write(units []byte) (int, error) {
	if len(units) > p.most {
		p.Buffer.Write(units[:p.most])
		return p.most, p.err
	}
	return p.Buffer.Write(units)
}

func TestAnOutputThatTakesAPart(t *testing.T) {
	whole := written(capkit.Pcapng, packet(arp()), packet(make([]byte, 300)))
	first := len(written(capkit.Pcapng, packet(arp())))
	full := errors.New("full")
	for _, it := range []struct{ told, want error }{{full, full}, {nil, io.ErrShortWrite}} {
		out := &part{most: 200, err: it.told}
		writer := capkit.NewWriter(out, capkit.Pcapng)
		check(writer.Write(packet(arp())))
		check(writer.Flush())
		check(writer.Write(packet(make([]byte, 300))))
		for i := 0; i < 2; i++ {
			if err := writer.Flush(); err != it.want {
				t.Error(err)
			}
		}
		if err := writer.Close(); err != it.want {
			t.Error(err)
		}
		// The packets before it are whole, and of it there are the first bytes.
		if !bytes.Equal(out.Bytes(), whole[:first+200]) {
			t.Error(out.Len())
		}
	}
}

// oneByOne is what is written of packets one by one, and which of them are refused.
func oneByOne(format capkit.Format, packets []capkit.Packet) (capture []byte, refused []int) {
	var out bytes.Buffer
	writer := capkit.NewWriter(&out, format)
	for i, it := range packets {
		if writer.Write(it) != nil {
			refused = append(refused, i)
		}
		check(writer.Flush())
	}
	check(writer.Close())
	return out.Bytes(), refused
}

// Packets that are gathered are the bytes of those that are written one by one, and a refused one has its own error.
func TestGatheredPackets(t *testing.T) {
	random := rand.New(rand.NewSource(3))
	for round := 0; round < 60; round++ {
		var packets []capkit.Packet
		for i := 0; i < 1500; i++ {
			it := packet(bytes.Repeat([]byte{byte(i)}, random.Intn(1<<random.Intn(10))))
			it.Comment, it.InterfaceName = "comment"[:random.Intn(8)], "name"[:random.Intn(5)]
			it.SnapLength += uint32(random.Intn(3))
			switch random.Intn(300) {
			case 0:
				it.Time = time.Unix(1<<40, 0)
			case 1:
				it.Time = time.Unix(1<<32, 0).UTC() // which pcap refuses, and pcapng has
			case 2:
				it.Comment = string(make([]byte, 65536))
			case 3:
				it.InterfaceName = string(make([]byte, 256))
			case 4:
				it.Data = make([]byte, 1<<20)
			case 5:
				it.Data = make([]byte, 100000+random.Intn(100000))
			case 6:
				it.LinkType = capkit.LinkRaw
			}
			packets = append(packets, it)
		}
		format := capkit.Format(round % 3)
		want, refused := oneByOne(format, packets)
		kept := uint64(len(packets) - len(refused))
		var out bytes.Buffer
		writer := capkit.NewWriter(&out, format)
		for i, it := range packets {
			err := writer.Write(it)
			if len(refused) > 0 && refused[0] == i {
				var why *capkit.WriteError
				if refused = refused[1:]; !errors.As(err, &why) {
					t.Fatal(format, i, err)
				}
			} else if err != nil {
				t.Fatal(format, i, err)
			}
			for at := range it.Data { // its bytes are the caller's again
				it.Data[at] ^= 0xff
			}
			if random.Intn(1000) == 0 {
				check(writer.Flush())
			}
		}
		if err := writer.Close(); err != nil || !bytes.Equal(out.Bytes(), want) || writer.Written() != kept || len(refused) > 0 {
			t.Fatal(format, round, err, out.Len(), len(want), writer.Written(), refused)
		}
	}
}

// A live output has each packet after Flush, and all of many without it, except the last ones.
func TestWhatIsGatheredIsFlushed(t *testing.T) {
	var out bytes.Buffer
	writer := capkit.NewWriter(&out, capkit.Pcapng)
	for i := 0; i < 3; i++ {
		check(writer.Write(packet(arp())))
		check(writer.Flush())
		if packets, err := read(of(out.Bytes())); len(packets) != i+1 || err != io.EOF {
			t.Error(i, len(packets), err)
		}
	}
	for i := 0; i < 2000; i++ {
		check(writer.Write(packet(make([]byte, 2000))))
	}
	packets, err := read(of(out.Bytes()))
	if len(packets) < 1900 || err != io.EOF || uint64(len(packets)) != writer.Written() {
		t.Error(len(packets), err, writer.Written())
	}
}

// After a panic of the output nothing more is written.
func TestAnOutputThatPanics(t *testing.T) {
	writer := capkit.NewWriter(panics{}, capkit.Pcap)
	func() {
		defer func() { recover() }()
		writer.Write(packet(arp()))
	}()
	if err := writer.Write(packet(arp())); err == nil || writer.Written() != 0 || writer.Close() != err {
		t.Error(err)
	}
}

type panics struct{}

func (panics) Write([]byte) (int, error) { panic("full") }

func TestWhatIsTooLong(t *testing.T) {
	for _, change := range []struct {
		of   func(*capkit.Packet)
		want capkit.Code
	}{
		{func(p *capkit.Packet) { p.Data = make([]byte, 1<<25) }, capkit.ErrUnitTooLong},
		{func(p *capkit.Packet) { p.Data = make([]byte, 1<<20) }, capkit.ErrUnitTooLong},
		{func(p *capkit.Packet) { p.Comment = string(make([]byte, 65536)) }, capkit.ErrBadOption},
		{func(p *capkit.Packet) { p.Comment = string(make([]byte, 1<<25)) }, capkit.ErrBadOption},
		{func(p *capkit.Packet) { p.InterfaceName = string(make([]byte, 256)) }, capkit.ErrBadOption},
		{func(p *capkit.Packet) { p.InterfaceName = string(make([]byte, 1<<25)) }, capkit.ErrBadOption},
		{func(p *capkit.Packet) { p.Time = time.Time{} }, capkit.ErrTimeOutOfRange},
		{func(p *capkit.Packet) { p.Time = time.Unix(1<<62, 0) }, capkit.ErrTimeOutOfRange},
		{func(p *capkit.Packet) { p.Time = time.Unix(0, 1<<63-1).Add(1) }, capkit.ErrTimeOutOfRange},
	} {
		wrong, good := packet(arp()), packet(arp())
		change.of(&wrong)
		var out bytes.Buffer
		writer := capkit.NewWriter(&out, capkit.Pcapng)
		if err := writer.Write(wrong); !errors.Is(err, change.want) {
			t.Error(err)
		}
		check(writer.Write(good))
		check(writer.Write(good))
		if err := writer.Write(wrong); !errors.Is(err, change.want) {
			t.Error(err)
		}
		check(writer.Write(good))
		if err := writer.Close(); err != nil || !bytes.Equal(out.Bytes(), written(capkit.Pcapng, good, good, good)) {
			t.Error(err)
		}
	}
	// What is as long as can be, in each way.
	most := packet(make([]byte, 1<<20-32-65544))
	most.Comment, most.InterfaceName = string(bytes.Repeat([]byte("c"), 65535)), string(bytes.Repeat([]byte("n"), 255))
	most.Time = time.Unix(0, 1<<63-1).UTC()
	got, err := read(of(written(capkit.Pcapng, most)))
	if err != io.EOF || !reflect.DeepEqual(got, []capkit.Packet{most}) {
		t.Error(len(got), err)
	}
}

// budget is an output that takes a number of bytes in all.
type budget struct {
	part
	limit int
}

func (b *budget) Write(units []byte) (int, error) {
	b.most = b.limit - b.Len()
	return b.part.Write(units)
}

// Of an output that fails in the middle of many packets, the count and the bytes are known.
func TestAnOutputThatTakesAPartOfMany(t *testing.T) {
	_, packets := capture100()
	whole, full := written(capkit.Pcapng, packets...), errors.New("full")
	random := rand.New(rand.NewSource(2))
	for round := 0; round < 100; round++ {
		out := &budget{part{err: full}, random.Intn(len(whole))}
		if round%2 == 1 {
			out.err = nil
		}
		writer := capkit.NewWriter(out, capkit.Pcapng)
		for _, it := range packets {
			if writer.Write(it) != nil {
				break
			}
		}
		err := writer.Flush()
		if err == nil || writer.Write(packets[0]) != err || writer.Close() != err || !bytes.HasPrefix(whole, out.Bytes()) {
			t.Fatal(err, out.Len())
		}
		count := writer.Written()
		end := len(written(capkit.Pcapng, packets[:count]...))
		if next := len(written(capkit.Pcapng, packets[:count+1]...)); count > 0 && out.Len() < end || out.Len() >= next {
			t.Error(count, out.Len(), end, next)
		}
	}
}
