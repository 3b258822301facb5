package vinjakwe

/*
#include "vinjakwe.h"
*/
import "C"

import (
	"encoding/json"
	"strings"
)

// A PathNode of a device path (UEFI Specification, "Generic Device Path Structures"), whose data are lent from the
// event's data.
type PathNode struct {
	Type, Subtype uint8
	Data          []byte
}

// PathText is the text of a device path, by its nodes, as `tpmtool events --json` has it (UEFI Specification, "Device
// Path Text Representation"): a slash is between two of them, and a comma between two paths. A unit of a file's name
// that is no UTF-16 is U+FFFD.
func PathText(path []PathNode) (text string) {
	var bytes []byte
	for _, it := range path {
		if count := 4 + len(it.Data); it.Type != 0x7F || it.Subtype != 0xFF {
			bytes = append(append(bytes, it.Type, it.Subtype, byte(count), byte(count>>8)), it.Data...)
		}
	}
	bytes = append(bytes, 0x7F, 0xFF, 4, 0)
	room := make([]byte, 16*len(bytes))
	_ = json.Unmarshal(room[:C.tpm_log_path_json(place(bytes), size(bytes), place(room), size(room))], &text)
	return text
}

// String is the node's text.
func (n PathNode) String() string { return PathText([]PathNode{n}) }

// fileName is the path name of a file, in which a unit that is no UTF-16 is U+FFFD, without the zero that ends it.
func fileName(data []byte) string { return strings.TrimSuffix(wide(data), "\x00") }
