# A small repository of the RPKI by openssl alone, for tests/linked/repository/make and tests/validation/make, which say
# `. tests/repository.sh` after they have set `out`, a folder, and `from` and `until`, times as 20260101000000Z: a trust
# anchor, an authority below it, and its route origins, which are published; an attestation of providers, which is not;
# and what makes lists, manifests and others. It goes on in `$work`.
# shellcheck shell=sh disable=SC2154
base=rsync://rpki.example/repo
mkdir -p "$out"
out=$(cd "$out" && pwd)
repo=$out/rpki.example/repo
work=$out/work
content=$out/content
mkdir -p "$repo/ta" "$repo/ca" "$work" "$content"
cd "$work" || exit

# ---- configuration: sections per certificate, written as they are needed

# ca_config NAME: the database of an issuer
ca_config() {
    : > "$1.index"
    printf '01\n' > "$1.crlnumber"
    cat > "$1.cnf" <<END
[ca]
default_ca = issuer
[issuer]
database = $1.index
crlnumber = $1.crlnumber
new_certs_dir = .
rand_serial = yes
default_md = sha256
default_crl_days = 30
unique_subject = no
preserve = yes
policy = any
crl_extensions = crl
[any]
commonName = supplied
[crl]
authorityKeyIdentifier = keyid
[req]
distinguished_name = dn
string_mask = nombstr
prompt = no
[dn]
commonName = unused
END
}

# request NAME: a key, and a request for a certificate of this common name. Where RPKI_TEST_KEYS names a folder, keys
# are kept in it by their names, for other repositories: making one takes a third of a second.
request() {
    kept=${RPKI_TEST_KEYS:-.}/$1.key
    if [ ! -f "$kept" ]; then
        openssl genpkey -quiet -algorithm RSA -pkeyopt rsa_keygen_bits:2048 -out "$1.made" 2>/dev/null ||
            openssl genpkey -algorithm RSA -pkeyopt rsa_keygen_bits:2048 -out "$1.made" 2>/dev/null
        mv "$1.made" "$kept"
    fi
    [ -f "$1.key" ] || cp "$kept" "$1.key"
    openssl req -new -config ta.cnf -key "$1.key" -subj "/CN=$1" -out "$1.csr"
}

# issue ISSUER NAME FILE EXTENSIONS [-selfsign]: the section `ext` of the file EXTENSIONS
issue() {
    # shellcheck disable=SC2086
    openssl ca -batch -notext -config "$1.cnf" -keyfile "$1.key" ${5:--cert "$1.pem"} -in "$2.csr" -extfile "$4" \
        -extensions ext -startdate "$from" -enddate "$until" -out "$2.pem" 2> "$2.log" || { cat "$2.log" >&2; exit 1; }
    grep -v '^-' "$2.pem" | openssl base64 -d > "$3"
}

common='subjectKeyIdentifier = hash
certificatePolicies = critical,1.3.6.1.5.5.7.14.2'
ca_part='basicConstraints = critical,CA:TRUE
keyUsage = critical,keyCertSign,cRLSign'

# ---- the trust anchor

ca_config ta
request ta
cat > ta.ext <<END
[ext]
$common
$ca_part
subjectInfoAccess = caRepository;URI:$base/ta/,1.3.6.1.5.5.7.48.10;URI:$base/ta/ta.mft,\
1.3.6.1.5.5.7.48.13;URI:https://rpki.example/notification.xml
sbgp-ipAddrBlock = critical,@ip
sbgp-autonomousSysNum = critical,@as
[ip]
IPv4.0 = 0.0.0.0/0
IPv6.0 = ::/0
[as]
AS.0 = 0-4294967295
END
issue ta ta "$repo/ta/ta.cer" ta.ext -selfsign

# ---- the CA: blocks that are prefixes and ranges, of lengths that are no whole octets; single numbers and ranges

ca_config ca
request ca
cat > ca.ext <<END
[ext]
$common
$ca_part
authorityKeyIdentifier = keyid
authorityInfoAccess = caIssuers;URI:$base/ta/ta.cer
crlDistributionPoints = URI:$base/ta/ta.crl
subjectInfoAccess = caRepository;URI:$base/ca/,1.3.6.1.5.5.7.48.10;URI:$base/ca/ca.mft
sbgp-ipAddrBlock = critical,@ip
sbgp-autonomousSysNum = critical,@as
[ip]
IPv4.0 = 10.0.0.0/8
IPv4.1 = 192.0.2.0/25
IPv4.2 = 198.51.100.1-198.51.100.254
IPv4.3 = 203.0.113.64/26
IPv6.0 = 2001:db8::/32
IPv6.1 = 3fff::1-3fff:0:ffff::
[as]
AS.0 = 64496
AS.1 = 64498-64511
AS.2 = 4200000000-4200000009
END
issue ta ca "$repo/ta/ca.cer" ca.ext

# ---- end entities: ee ISSUER NAME URI RESOURCES

ee() {
    request "$2"
    cat > "$2.ext" <<END
[ext]
$common
keyUsage = critical,digitalSignature
authorityKeyIdentifier = keyid
authorityInfoAccess = caIssuers;URI:$base/ta/$1.cer
crlDistributionPoints = URI:$base/$1/$1.crl
subjectInfoAccess = 1.3.6.1.5.5.7.48.11;URI:$base/$1/$3
$4
END
    issue "$1" "$2" "$2.cer" "$2.ext"
}

inherited='sbgp-ipAddrBlock = critical,IPv4:inherit,IPv6:inherit
sbgp-autonomousSysNum = critical,AS:inherit'

# sign NAME TYPE FILE: signed data (RFC 6488) over content/FILE
sign() {
    openssl cms -sign -nodetach -binary -outform DER -econtent_type "$2" -keyid -md sha256 -nosmimecap \
        -signer "$1.pem" -inkey "$1.key" -in "$content/$3" -out "$4/$3"
}

# der FILE: content/FILE from the description on the input (openssl's ASN1_generate_nconf)
der() {
    cat > "$1.asn1"
    openssl asn1parse -genconf "$1.asn1" -noout -out "$content/$1"
}

# A bit string by its contents octets, the count of unused bits first: openssl's own would drop bits that are zero.
bits() { printf 'IMPLICIT:3U,FORMAT:HEX,OCTETSTRING:%s\n' "$1"; }

# roa FILE NUMBER BITS: content/FILE, a ROA of one prefix of IPv4
roa() {
    der "$1" <<END
asn1 = SEQUENCE:roa
[roa]
as = INTEGER:$2
blocks = SEQUENCE:blocks
[blocks]
v4 = SEQUENCE:v4
[v4]
family = FORMAT:HEX,OCTETSTRING:0001
addresses = SEQUENCE:addresses4
[addresses4]
a = SEQUENCE:a4
[a4]
prefix = $(bits "$3")
END
}

# crl NAME
crl() {
    openssl ca -gencrl -config "$1.cnf" -keyfile "$1.key" -cert "$1.pem" -crl_lastupdate "$from" \
        -crl_nextupdate "$until" -out "$1.crl.pem" 2> "$1.crl.log" || { cat "$1.crl.log" >&2; exit 1; }
    openssl crl -in "$1.crl.pem" -outform DER -out "$repo/$1/$1.crl"
}

# manifest ISSUER NAME: of all that is beside it (RFC 9286)
manifest() {
    ee "$1" "$2" "$1.mft" "$inherited"
    {
        printf 'asn1 = SEQUENCE:manifest\n[manifest]\nnumber = INTEGER:7\nthis = GENERALIZEDTIME:%s\n' "$from"
        printf 'next = GENERALIZEDTIME:%s\nalg = OID:2.16.840.1.101.3.4.2.1\nlist = SEQUENCE:list\n[list]\n' "$until"
        n=0
        for file in "$repo/$1"/*; do
            name=$(basename "$file")
            [ "$name" = "$1.mft" ] || [ "$name" = ta.cer ] || {
                n=$((n + 1))
                printf 'f%d = SEQUENCE:f%d\n' $n $n
                printf '[f%d]\nfile = IA5STRING:%s\nhash = FORMAT:HEX,BITSTRING:%s\n' $n "$name" \
                    "$(openssl dgst -sha256 -r "$file" | cut -d' ' -f1)" >> entries
            }
        done
        cat entries
        rm entries
    } | der "$1.mft"
    sign "$2" 1.2.840.113549.1.9.16.1.26 "$1.mft" "$repo/$1"
}

# router_with FILE: the certificate of a router (RFC 8209 3.1): a P-256 key, and a number of its own
router_with() {
    openssl genpkey -algorithm EC -pkeyopt ec_paramgen_curve:P-256 -out router.key 2> router.log
    openssl req -new -config ta.cnf -key router.key -subj /CN=ROUTER-0000FBF0 -out router.csr
    cat > router.ext <<END
[ext]
$common
keyUsage = critical,digitalSignature
extendedKeyUsage = 1.3.6.1.5.5.7.3.30
authorityKeyIdentifier = keyid
authorityInfoAccess = caIssuers;URI:$base/ta/ca.cer
crlDistributionPoints = URI:$base/ca/ca.crl
sbgp-autonomousSysNum = critical,AS:64496
END
    issue ca router "$1" router.ext
}

# revoke NAME: a certificate of the authority
revoke() { openssl ca -config ca.cnf -keyfile ca.key -cert ca.pem -revoke "$1.pem" 2> "$1.log"; }

# ---- ROAs (RFC 9582): one of both families, one with a single prefix

ee ca roa roa.roa 'sbgp-ipAddrBlock = critical,@ip
[ip]
IPv4.0 = 10.0.0.0/8
IPv4.1 = 192.0.2.0/25
IPv6.0 = 2001:db8::/32'
der roa.roa <<END
asn1 = SEQUENCE:roa
[roa]
as = INTEGER:64496
blocks = SEQUENCE:blocks
[blocks]
v4 = SEQUENCE:v4
v6 = SEQUENCE:v6
[v4]
family = FORMAT:HEX,OCTETSTRING:0001
addresses = SEQUENCE:addresses4
[addresses4]
a = SEQUENCE:a4
b = SEQUENCE:b4
c = SEQUENCE:c4
[a4]
prefix = $(bits 000a)
length = INTEGER:24
[b4]
prefix = $(bits 030a40)
[c4]
prefix = $(bits 07c0000200)
[v6]
family = FORMAT:HEX,OCTETSTRING:0002
addresses = SEQUENCE:addresses6
[addresses6]
a = SEQUENCE:a6
[a6]
prefix = $(bits 0020010db8)
length = INTEGER:48
END
sign roa 1.2.840.113549.1.9.16.1.24 roa.roa "$repo/ca"

ee ca one one.roa 'sbgp-ipAddrBlock = critical,@ip
[ip]
IPv4.0 = 203.0.113.64/26'
roa one.roa 0 06cb007140
sign one 1.2.840.113549.1.9.16.1.24 one.roa "$repo/ca"

# ---- an ASPA (draft-ietf-sidrops-aspa-profile, version 1)

ee ca aspa aspa.asa 'sbgp-autonomousSysNum = critical,AS:64496'
der aspa.asa <<END
asn1 = SEQUENCE:aspa
[aspa]
version = EXPLICIT:0,INTEGER:1
customer = INTEGER:64496
providers = SEQUENCE:providers
[providers]
a = INTEGER:64499
b = INTEGER:64501
END
sign aspa 1.2.840.113549.1.9.16.1.49 aspa.asa "$work"

# ---- an object whose certificate is revoked

ee ca gone gone.roa 'sbgp-ipAddrBlock = critical,@ip
[ip]
IPv4.0 = 10.1.0.0/16'
roa gone.roa 64496 000a01
sign gone 1.2.840.113549.1.9.16.1.24 gone.roa "$repo/ca"

# ---- an object with more resources than the authority has

ee ca wide wide.roa 'sbgp-ipAddrBlock = critical,@ip
[ip]
IPv4.0 = 11.0.0.0/8'
der wide.roa < gone.roa.asn1
sign wide 1.2.840.113549.1.9.16.1.24 wide.roa "$repo/ca"
