//go:build gopacket

package capkit

import "github.com/google/gopacket"

// ReadPacketData makes a Reader a source of gopacket's packets (gopacket.PacketDataSource). Only
// programs that are built with the tag gopacket have it, so the package itself doesn't depend on gopacket.
func (r *Reader) ReadPacketData() ([]byte, gopacket.CaptureInfo, error) {
	packet, err := r.Next()
	return packet.Data, gopacket.CaptureInfo{Timestamp: packet.Time, CaptureLength: len(packet.Data),
		Length: int(packet.OriginalLength)}, err
}
