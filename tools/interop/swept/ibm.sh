# shellcheck shell=sh
# Runs a shell command with tools of IBM's TSS on swtpm's port, which takes commands without framing.
export TPM_INTERFACE_TYPE=socsim TPM_SERVER_TYPE=raw TPM_SERVER_NAME=127.0.0.1 TPM_COMMAND_PORT="$TPMSIM_PORT"
export TPM_PLATFORM_PORT="$TPMSIM_PORT" TPM_DATA_DIR=. TPM_ENCRYPT_SESSIONS=0
eval "$1"
