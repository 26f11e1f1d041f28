#!/usr/bin/env bash
# Makes certificates by openssl: an authority, where there is none yet; one for the room's machine; and one for each
# machine with terminals. Usage: examples/haproxy/certificates.sh FOLDER HOST MACHINE.. (HOST by its name, as in DNS)
set -eEu -o pipefail
if [ $# -lt 2 ]; then
  echo 'usage: examples/haproxy/certificates.sh FOLDER HOST MACHINE..' >&2
  exit 2
fi
folder=$1 host=$2
shift 2
umask 077
mkdir -p "$folder"
cd "$folder"
trap 'cat openssl.log >&2' ERR

# A new key, and by it a request for a certificate or a certificate signed by itself.
request() { openssl req -newkey ec -pkeyopt ec_paramgen_curve:P-256 -noenc -keyout "$1.key" "${@:2}" 2>openssl.log; }

# A certificate for two years, signed by the authority, and with its key in one file.
certify() {
  request "$1" -subj "/CN=$1" -addext "subjectAltName=DNS:$1" -addext "extendedKeyUsage=$2" |
    openssl x509 -req -CA authority.crt -CAkey authority.key -days 730 -copy_extensions copy -out "$1.crt" 2>openssl.log
  cat "$1.crt" "$1.key" >"$3"
  rm "$1.crt" "$1.key"
}

[ -e authority.key ] || request authority -x509 -days 3650 -subj '/CN=dispatch room' -out authority.crt
certify "$host" serverAuth room.pem
for machine in "$@"; do
  certify "$machine" clientAuth "$machine.pem"
done
rm -f openssl.log
