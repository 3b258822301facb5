package main

import (
	"encoding/binary"
	"encoding/hex"
	"fmt"
	"strings"
	"unicode/utf16"

	"vinjakwe"
)

// wide is the text in UTF-16, in which half of a pair is U+FFFD.
func wide(it string) string {
	var bytes []byte
	for _, unit := range utf16.Encode([]rune(it)) {
		bytes = binary.LittleEndian.AppendUint16(bytes, unit)
	}
	return text(bytes)
}

func nodes(path []vinjakwe.PathNode) string {
	var told []string
	for _, it := range path {
		told = append(told, fmt.Sprintf("%d:%d:%s", it.Type, it.Subtype, hex.EncodeToString(it.Data)))
	}
	if told == nil {
		told = []string{"-"}
	}
	return strings.Join(told, ",") + " " + text([]byte(vinjakwe.PathText(path)))
}

func owned(it vinjakwe.Owned) string {
	return fmt.Sprintf("owned %s %s", text(it.Owner[:]), text(it.Data))
}

func heldLines(it vinjakwe.Held) (lines []string) {
	switch it := it.(type) {
	case vinjakwe.LoadOption:
		lines = append(lines, fmt.Sprintf("option %d %s %s", it.Attributes, wide(it.Description), text(it.Data)))
		for _, path := range it.Paths {
			lines = append(lines, "path "+nodes(path))
		}
	case vinjakwe.BootOrder:
		line := "order"
		for _, number := range it {
			line += fmt.Sprintf(" %d", number)
		}
		lines = append(lines, line)
	case vinjakwe.SignatureLists:
		for _, list := range it {
			lines = append(lines, fmt.Sprintf("list %s %s", text(list.Type[:]), text(list.Header)))
			for _, one := range list.Signatures {
				lines = append(lines, owned(one))
			}
		}
	case vinjakwe.Owned:
		lines = append(lines, owned(it))
	case vinjakwe.HeldByte:
		lines = append(lines, fmt.Sprintf("byte %d", it))
	}
	return lines
}

func contentLines(it vinjakwe.Content) []string {
	switch it := it.(type) {
	case vinjakwe.VariableContent:
		line := fmt.Sprintf("variable %s %s %s", text(it.GUID[:]), wide(it.Name), text(it.Value))
		return append([]string{line}, heldLines(it.Holds)...)
	case vinjakwe.TextContent:
		return []string{"text " + text([]byte(it))}
	case vinjakwe.VersionContent:
		return []string{"version " + wide(string(it))}
	case vinjakwe.VersionGUID:
		return []string{"version-guid " + text(it[:])}
	case vinjakwe.Separator:
		return []string{fmt.Sprintf("separator %d", it)}
	case vinjakwe.Locality:
		return []string{fmt.Sprintf("locality %d", it)}
	case vinjakwe.Image:
		return []string{fmt.Sprintf("image %d %d %d %s", it.Address, it.Size, it.LinkAddress, nodes(it.Path))}
	case vinjakwe.Firmware:
		return []string{fmt.Sprintf("firmware %d %d %s", it.Base, it.Size, text(it.Name))}
	case vinjakwe.Tables:
		lines := []string{"tables " + text(it.Name)}
		for _, one := range it.Tables {
			lines = append(lines, fmt.Sprintf("table %s %d", text(one.GUID[:]), one.Address))
		}
		return lines
	case vinjakwe.Tag:
		return []string{fmt.Sprintf("tag %d %s", it.ID, text(it.Data))}
	case vinjakwe.Partitions:
		lines := []string{"partitions " + text(it.Disk[:])}
		for _, one := range it.Partitions {
			lines = append(lines, fmt.Sprintf("partition %s %s %d %d %d %s", text(one.Type[:]), text(one.GUID[:]), one.First,
				one.Last, one.Attributes, wide(one.Name)))
		}
		return lines
	case vinjakwe.Measurement:
		return []string{fmt.Sprintf("measurement %d %d %s %s", it.Hash, it.DeviceType, text(it.Block), text(it.Context))}
	case vinjakwe.Evidence:
		return []string{fmt.Sprintf("evidence %d %d %d %d %s %s %s", it.AuthState, it.DeviceType, it.SubHeaderType, it.UID,
			nodes(it.Path), text(it.SubHeader), text(it.Context))}
	}
	return nil
}

// contents prints what the data of each record say.
func contents(log []byte) {
	it := vinjakwe.NewEvents(log)
	for it.Next() {
		event := it.Event()
		for _, line := range contentLines(event.Content()) {
			fmt.Fprintln(out, event.Number, line)
		}
	}
}
