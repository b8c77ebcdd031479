# For runs that call the library for C, which read this file. They are skipped where there is none.
if [ -z "${LRC_LIBRARY-}" ]; then
    echo 'there is no library, since there is no cc or LRC_LIBRARY names none'
    exit 77
fi
folder=${LRC_LIBRARY%/*}
