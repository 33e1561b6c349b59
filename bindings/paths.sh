# For the scripts to read in: makes the paths in the variables of README.md, "What it needs", absolute, from the folder in which the
# command was given.
absolute() { case $1 in /*) echo "$1" ;; *) echo "$PWD/$1" ;; esac; }
for name in VAULT_LIBRARY VAULT_PROGRAM VAULT_RUST_SRC CARGO_TARGET_DIR; do
    eval "value=\${$name:-}"
    if [ -n "$value" ]; then
        value=$(absolute "$value")
        export "$name=$value"
    fi
done
