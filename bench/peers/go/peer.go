// Reads a file by Go's crypto/x509, and prints how much there was: `peer READER FILE`; or looks for a
// path: `peer path BUNDLE ANCHORS VOUCHERS`, of the bundle's first item.
package main

import (
	"crypto/x509"
	"crypto/x509/pkix"
	"encoding/asn1"
	"fmt"
	"os"
	"time"
)

var moment = time.Date(2026, 12, 1, 0, 0, 0, 0, time.UTC)

func need(err error) {
	if err != nil {
		fmt.Fprintln(os.Stderr, err)
		os.Exit(1)
	}
}

func octetsOf(file string) []byte {
	octets, err := os.ReadFile(file)
	need(err)
	return octets
}

// each cuts octets into elements, and hands each to what reads it; gives how many there are.
func each(octets []byte, read func([]byte)) int {
	count := 0
	for len(octets) > 0 {
		var element asn1.RawValue
		rest, err := asn1.Unmarshal(octets, &element)
		need(err)
		read(element.FullBytes)
		octets = rest
		count++
	}
	return count
}

func certificates(file string) []*x509.Certificate {
	var found []*x509.Certificate
	each(octetsOf(file), func(item []byte) {
		certificate, err := x509.ParseCertificate(item)
		need(err)
		found = append(found, certificate)
	})
	return found
}

func path(bundle, anchors string) int {
	items, roots, others := certificates(bundle), x509.NewCertPool(), x509.NewCertPool()
	for _, it := range certificates(anchors) {
		roots.AddCert(it)
	}
	for _, it := range items[1:] {
		others.AddCert(it)
	}
	chains, err := items[0].Verify(x509.VerifyOptions{Roots: roots, Intermediates: others,
		CurrentTime: moment, KeyUsages: []x509.ExtKeyUsage{x509.ExtKeyUsageAny}})
	need(err)
	least := len(chains[0])
	for _, it := range chains {
		if len(it) < least {
			least = len(it)
		}
	}
	return least
}

func main() {
	file := os.Args[2]
	count := 0
	switch os.Args[1] {
	case "parse":
		count = len(certificates(file))
	case "list":
		count = each(octetsOf(file), func(item []byte) {
			_, err := x509.ParseRevocationList(item)
			need(err)
		})
	case "name":
		count = each(octetsOf(file), func(item []byte) {
			var found pkix.RDNSequence
			_, err := asn1.Unmarshal(item, &found)
			need(err)
		})
	case "path":
		count = path(file, os.Args[3])
	default:
		os.Exit(2)
	}
	fmt.Println(count)
}
