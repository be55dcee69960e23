# Directories with access control lists and labels: sourced by the guest's scenarios, and by the
# host, which makes one beside the share and compares.

# A directory with lists, one of them a default.
make_lists() {
    mkdir "$1"
    setfacl -m u:1001:rwx,g:1002:r-x "$1"
    setfacl -d -m u:1001:rwx,g:1002:r-x,o::- "$1"
    fill_lists "$1"
}

# Its files have the default list instead of the mask of the process, and changes of it: an entry
# more, a mask by chmod, no list at all.
fill_lists() {
    (
        cd "$1" || exit
        umask 077
        rm -rf file dir pipe link masked plain
        : > file
        mkdir dir
        : > dir/deep
        mkfifo pipe
        ln -s file link
        : > masked
        : > plain
    )
    setfacl -m u:1003:rw "$1/file"
    chmod 640 "$1/masked"
    setfacl -b "$1/plain"
}

# The lists of a directory and its files, and their labels.
lists_of() { (cd "$1" && getfacl -n . file dir dir/deep pipe masked plain); }
label_of() { getfattr -h -n security.selinux "$@" | sed 's/\\000"$/"/; /^$/d'; }
labels_of() { (cd "$1" && label_of . file dir dir/deep pipe link masked plain); }

# The labels by the guest's policy; one file gets another by setfattr.
wanted_labels() {
    printf '# file: %s\nsecurity.selinux="system_u:object_r:%s_t"\n' . dir file file dir dir \
        dir/deep file pipe pipe link link masked file plain other
}
