#!/usr/bin/env bash
# Makes a small PKI with openssl (RFC 5280): a root, an intermediate, a leaf (serial 3), and two lists of the intermediate's, of
# which list revokes the leaf and other_list another certificate (serial 4). All stand here as DER; of the leaf and the
# intermediate, of the root and of the lists there are PEM files, too. bundle.der is the leaf, the intermediate, the root and the
# list that revokes; bundle.frame has the lines that `certpath frame` prints for it, computed from the files' sizes, and
# vouchers.txt those that `./vouch samples/bundle.der samples/root.der` writes, computed from what signed what.
#
#     samples/make.sh [FOLDER]       writes into the folder, samples/ where none is given
#
# The keys in samples/keys are kept and the dates are fixed, so each run gives the same octets. Who needs other keys removes
# these: new ones are made then. They are for all to read: nothing that they sign is to be trusted.
set -euo pipefail
samples=$(cd "$(dirname "$0")" && pwd)
keys=$samples/keys
cd "${1:-$samples}"
work=$(mktemp -d)
trap 'rm -rf "$work"' EXIT
from=20261122000000Z

cat > "$work/openssl.cnf" <<'CNF'
[req]
distinguished_name = name
prompt = no
[name]
CN = unused
[root]
basicConstraints = critical,CA:TRUE
keyUsage = critical,keyCertSign,cRLSign
subjectKeyIdentifier = hash
[intermediate]
basicConstraints = critical,CA:TRUE,pathlen:0
keyUsage = critical,keyCertSign,cRLSign
subjectKeyIdentifier = hash
authorityKeyIdentifier = keyid
[leaf]
basicConstraints = critical,CA:FALSE
keyUsage = critical,digitalSignature
subjectAltName = DNS:www.example.test
subjectKeyIdentifier = hash
authorityKeyIdentifier = keyid
[ca]
default_ca = own
[own]
database = index.txt
serial = serial
crlnumber = crlnumber
new_certs_dir = .
default_md = sha256
policy = any
preserve = yes
[any]
countryName = supplied
organizationName = supplied
commonName = supplied
CNF

by_openssl() { (cd "$work" && openssl ca -batch -notext -config openssl.cnf "$@"); }

sign() { # name, subject, serial, end, how it is signed
  openssl req -new -config "$work/openssl.cnf" -key "$keys/$1.pem" -subj "$2" -out "$work/$1.csr"
  echo "$3" > "$work/serial"
  : > "$work/index.txt"
  by_openssl -in "$1.csr" -extensions "$1" -startdate "$from" -enddate "$4" -out "$1.pem" "${@:5}"
}

revoke() { # name, number, revoked serial
  printf 'R\t311121000000Z\t261122000000Z\t%s\tunknown\t/CN=revoked\n' "$3" > "$work/index.txt"
  echo "$2" > "$work/crlnumber"
  by_openssl -cert intermediate.pem -keyfile "$keys/intermediate.pem" -gencrl -crl_lastupdate "$from" -crl_nextupdate 20311122000000Z -out "$1.pem"
}

mkdir -p "$keys"
for name in root intermediate leaf; do
  [ -e "$keys/$name.pem" ] || openssl genpkey -algorithm RSA -pkeyopt rsa_keygen_bits:2048 -out "$keys/$name.pem"
done
sign root '/C=CZ/O=Example/CN=Example Root' 01 20461122000000Z -selfsign -keyfile "$keys/root.pem"
sign intermediate '/C=CZ/O=Example/CN=Example Intermediate' 02 20361122000000Z -cert root.pem -keyfile "$keys/root.pem"
sign leaf '/C=CZ/O=Example/CN=www.example.test' 03 20311122000000Z -cert intermediate.pem -keyfile "$keys/intermediate.pem"
revoke list 01 03
revoke other_list 02 04

for name in root intermediate leaf; do openssl x509 -in "$work/$name.pem" -outform DER -out "$name.der"; done
for name in list other_list; do openssl crl -in "$work/$name.pem" -outform DER -out "$name.der"; done
cat "$work/leaf.pem" "$work/intermediate.pem" > fullchain.pem
cp "$work/root.pem" "$work/list.pem" "$work/other_list.pem" .
cat leaf.der intermediate.der root.der list.der > bundle.der

at=0 k=0
for name in leaf intermediate root list; do
  size=$(wc -c < "$name.der")
  echo "$k $at $size"
  k=$((k + 1)) at=$((at + size))
done > bundle.frame
echo "end clean" >> bundle.frame

digest() { sha256sum | cut -c 1-64; }
vouch() { # the key's name, the name of an item that it signed
  echo "$(openssl pkey -in "$keys/$1.pem" -pubout -outform DER | digest) $(digest < "$2.der")"
}
{ vouch root root; vouch root intermediate; vouch intermediate leaf; vouch intermediate list; } | LC_ALL=C sort > vouchers.txt
