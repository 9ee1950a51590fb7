#!/usr/bin/env bash
# Copies the source of the Rust crate typed-path 0.13.0 into a new folder, and gives it there the answers that the page
# DIFFERENCES names in their stead: of has_any_verbatim_prefix, of Windows hashes, and of names that stand for devices.
#
# mend.sh SOURCE OUT
set -euo pipefail
[[ $# -eq 2 && -d $1/src/windows && ! -e $2 ]] ||
    { echo "mend.sh: it takes the crate's folder and a new one" >&2 && exit 2; }
cp -R -- "$1" "$2"
cd -- "$2/src/windows"

# Edits a file by sed, which has to change it.
edit() {
    cp "$1" "$1.was"
    sed -i "${@:2}" "$1"
    ! cmp -s "$1" "$1.was" || { echo "mend.sh: $1 is not that of 0.13.0" >&2 && exit 1; }
    rm "$1.was"
}

for family in non_utf8 utf8; do
    edit $family/components.rs '/fn has_any_verbatim_prefix/,/^    }/ s/Prefix::\(UNC\|Disk\)(/Prefix::Verbatim\1(/g'
    edit $family/components/component.rs '/fn is_valid/,/^    }/ {
        s/Normal(\(\w*\)) => /&!crate::constants::windows::is_device(\1.as_ref()) \&\& /
    }'
done
edit constants.rs '$ a\
\
pub(crate) fn is_device(name: &[u8]) -> bool {\
    let stem = name.split(|byte| *byte == b'"'.'"').next().unwrap_or_default();\
    RESERVED_DEVICE_NAMES.iter().any(|device| device.eq_ignore_ascii_case(stem))\
}'
edit non_utf8.rs '/fn push_checked/,/^    }/ s/^ *WindowsComponent::Normal(\w*) => {/\
                WindowsComponent::Normal(name) if is_device(name) => return Err(CheckedPathError::InvalidFilename),\n&/'
edit non_utf8.rs '/fn hash<H: Hasher>(/,/^    }/ c\
    fn hash<H: Hasher>(path: &[u8], hasher: &mut H) {\
        let mut sum = 0;\
        for component in Self::components(path) {\
            match component {\
                WindowsComponent::Prefix(prefix) => prefix.hash(hasher),\
                WindowsComponent::RootDir => {}\
                _ => {\
                    hasher.write(component.as_bytes());\
                    sum += component.len();\
                }\
            }\
        }\
        hasher.write_usize(sum);\
    }'
