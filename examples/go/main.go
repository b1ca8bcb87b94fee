// Shows the certificates and revocation lists of files of PEM, DER or PKCS #7, a line each.
//
//	go run . ../../samples/fullchain.pem
package main

import (
	"fmt"
	"os"
	"strings"
)

// shown escapes what isn't printable ASCII, so that a name stays on its line.
func shown(text string) string {
	var line strings.Builder
	for _, octet := range []byte(text) {
		if octet < ' ' || octet > '~' || octet == '\\' {
			fmt.Fprintf(&line, "\\%02X", octet)
		} else {
			line.WriteByte(octet)
		}
	}
	return line.String()
}

// lineOf is the line of an item.
func lineOf(octets []byte) (string, error) {
	item, err := Read(octets)
	if err != nil {
		return "", err
	}
	kind, name := "certificate", item.Subject
	if item.IsList {
		kind, name = "list of", item.Issuer
	} else if !item.IsCertificate {
		return "something else", nil
	}
	text, err := Name(name)
	date := fmt.Sprintf("%04d-%02d-%02d", item.Year, item.Month, item.Day)
	return fmt.Sprintf("%s %s, from %s", kind, shown(text), date), err
}

func show(path string) error {
	file, err := os.ReadFile(path)
	if err != nil {
		return err
	}
	octets, left, err := Load(file)
	if err != nil {
		return err
	}
	items, err := Frame(octets)
	if err != nil {
		return err
	}
	for _, item := range items {
		line, err := lineOf(item)
		if err != nil {
			return err
		}
		fmt.Println(line)
	}
	if left > 0 {
		fmt.Fprintf(os.Stderr, "%s: %d left out\n", path, left)
	}
	return nil
}

func main() {
	for _, path := range os.Args[1:] {
		if err := show(path); err != nil {
			fmt.Fprintln(os.Stderr, err)
			os.Exit(1)
		}
	}
}
