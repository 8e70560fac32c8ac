#!/usr/bin/env bash
# Installs the tools that the written modules are tried with, from Debian's packages; says what is missing.
set -u
missing=()
for tool in iverilog verilator yosys; do
  command -v "$tool" >/dev/null 2>&1 || missing+=("$tool")
done
if [ ${#missing[@]} -gt 0 ] && command -v apt-get >/dev/null 2>&1 && [ "$(id -u)" = 0 ]; then
  apt-get update >/dev/null 2>&1
  for tool in "${missing[@]}"; do
    DEBIAN_FRONTEND=noninteractive apt-get install -y --no-install-recommends "$tool" >/dev/null 2>&1
  done
fi
for tool in iverilog verilator yosys; do
  command -v "$tool" >/dev/null 2>&1 || echo "peers: $tool is not to be had here; its checks are skipped"
done
exit 0
