// pion/rtcp as a side of bench/run, with the arguments and the exit statuses of harness.c: INPUTS OPERATION N|time.
package main

import (
	"bytes"
	"encoding/hex"
	"fmt"
	"os"
	"strconv"
	"strings"
	"time"

	"github.com/pion/rtcp"
)

const (
	batches = 63
	batch   = 200
)

var out []byte

func load(path, name string) []byte {
	text, err := os.ReadFile(path)
	if err != nil {
		return nil
	}
	for _, line := range strings.Split(string(text), "\n") {
		if strings.HasPrefix(line, name+"\t") {
			input, _ := hex.DecodeString(strings.TrimSpace(line[len(name)+1:]))
			return input
		}
	}
	return nil
}

func sumOfBlocks(blocks []rtcp.ReceptionReport) uint64 {
	sum := uint64(0)
	for i := range blocks {
		b := &blocks[i]
		sum += uint64(b.SSRC) + uint64(b.FractionLost) + uint64(b.TotalLost) + uint64(b.LastSequenceNumber) +
			uint64(b.Jitter) + uint64(b.LastSenderReport) + uint64(b.Delay)
	}
	return sum
}

func sumOfChunks(chunks []rtcp.SourceDescriptionChunk) uint64 {
	sum := uint64(0)
	for i := range chunks {
		sum += uint64(chunks[i].Source)
		for _, item := range chunks[i].Items {
			sum += uint64(item.Type) + uint64(len(item.Text)) + uint64(item.Text[0])
		}
	}
	return sum
}

func sumOf(packets []rtcp.Packet) uint64 {
	sum := uint64(0)
	for _, packet := range packets {
		switch p := packet.(type) {
		case *rtcp.SenderReport:
			sum += p.NTPTime + uint64(p.SSRC) + uint64(p.RTPTime) + uint64(p.PacketCount) + uint64(p.OctetCount) + sumOfBlocks(p.Reports)
		case *rtcp.ReceiverReport:
			sum += uint64(p.SSRC) + sumOfBlocks(p.Reports)
		case *rtcp.SourceDescription:
			sum += sumOfChunks(p.Chunks)
		}
	}
	return sum
}

func parseCompound(input []byte) uint64 {
	var compound rtcp.CompoundPacket
	if compound.Unmarshal(input) != nil {
		return 0
	}
	return sumOf(compound)
}

func parse(input []byte) uint64 {
	packets, err := rtcp.Unmarshal(input)
	if err != nil {
		return 0
	}
	return sumOf(packets)
}

func keep(written []byte, err error) uint64 {
	if err != nil {
		return 0
	}
	out = written
	return uint64(len(written))
}

func operation(name string, input []byte) func() uint64 {
	packets, err := rtcp.Unmarshal(input)
	if err != nil {
		return nil
	}
	switch name {
	case "parse-rrsdes":
		return func() uint64 { return parseCompound(input) }
	case "parse-sr31", "parse-sdes31":
		return func() uint64 { return parse(input) }
	case "write-rrsdes":
		return func() uint64 { return keep(rtcp.CompoundPacket(packets).Marshal()) }
	case "write-sr31", "write-sdes31":
		return func() uint64 { return keep(rtcp.Marshal(packets)) }
	}
	return nil
}

func repeat(run func() uint64, n int) uint64 {
	total := uint64(0)
	for i := 0; i < n; i++ {
		total += run()
	}
	return total
}

func printTime(run func() uint64) {
	best := float64(0)
	for i := 0; i < batches; i++ {
		start := time.Now()
		repeat(run, batch)
		taken := float64(time.Since(start).Nanoseconds()) / batch
		if i == 0 || taken < best {
			best = taken
		}
	}
	fmt.Printf("%.2f\n", best)
}

func status() int {
	if len(os.Args) != 4 {
		return 2
	}
	_, name, _ := strings.Cut(os.Args[2], "-")
	input := load(os.Args[1], name)
	if input == nil {
		return 2
	}
	run := operation(os.Args[2], input)
	if run == nil {
		return 3
	}
	if os.Args[3] == "time" {
		printTime(run)
		return 0
	}
	n, err := strconv.Atoi(os.Args[3])
	if err != nil {
		return 2
	}
	once := run()
	if once == 0 || repeat(run, n) != once*uint64(n) {
		return 1
	}
	if out != nil && !bytes.Equal(out, input) {
		return 4
	}
	fmt.Println(once)
	return 0
}

func main() { os.Exit(status()) }
