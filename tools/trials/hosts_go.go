// Says what Go's crypto/x509 answers for host names.
//
//	hosts FILE         rows of FILE, each a certificate's DER in hex and a host with a tab between:
//	                   prints yes, no, or what is wrong with the certificate, a line a row
//	hosts --table FILE the rows of the table of host names in Go's own test: prints name, host and
//	                   answer, quoted, a line a row
package main

import (
	"bufio"
	"crypto/x509"
	"encoding/hex"
	"fmt"
	"go/ast"
	"go/parser"
	"go/token"
	"log"
	"os"
	"strings"
)

const table = "matchHostnamesTests"

func answer(der, host string) string {
	octets, err := hex.DecodeString(der)
	if err != nil {
		log.Fatal(err)
	}
	certificate, err := x509.ParseCertificate(octets)
	if err != nil {
		return err.Error()
	}
	if certificate.VerifyHostname(host) != nil {
		return "no"
	}
	return "yes"
}

func answers(name string) {
	file, err := os.Open(name)
	if err != nil {
		log.Fatal(err)
	}
	lines := bufio.NewScanner(file)
	lines.Buffer(nil, 1<<20)
	for lines.Scan() {
		der, host, _ := strings.Cut(lines.Text(), "\t")
		fmt.Println(answer(der, host))
	}
	if err := lines.Err(); err != nil {
		log.Fatal(err)
	}
}

// text is the source of a literal or a name.
func text(value ast.Expr) string {
	switch value := value.(type) {
	case *ast.BasicLit:
		return value.Value
	case *ast.Ident:
		return value.Name
	}
	log.Fatalf("%T in the table", value)
	return ""
}

func rows(name string) {
	file, err := parser.ParseFile(token.NewFileSet(), name, nil, 0)
	if err != nil {
		log.Fatal(err)
	}
	ast.Inspect(file, func(node ast.Node) bool {
		spec, ok := node.(*ast.ValueSpec)
		if !ok || spec.Names[0].Name != table {
			return true
		}
		for _, row := range spec.Values[0].(*ast.CompositeLit).Elts {
			var parts []string
			for _, value := range row.(*ast.CompositeLit).Elts {
				parts = append(parts, text(value))
			}
			fmt.Println(strings.Join(parts, "\t"))
		}
		return false
	})
}

func main() {
	log.SetFlags(0)
	switch {
	case len(os.Args) == 3 && os.Args[1] == "--table":
		rows(os.Args[2])
	case len(os.Args) == 2:
		answers(os.Args[1])
	default:
		log.Fatal("usage: hosts FILE | hosts --table FILE")
	}
}
