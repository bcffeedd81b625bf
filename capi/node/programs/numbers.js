'use strict';
// Errors by the names that Node gives them: the number and the words of each on Linux, wherever this runs,
// since that is what the programs were compiled for.
const NUMBERS = {
  EPERM: [1, 'Operation not permitted'],
  ENOENT: [2, 'No such file or directory'],
  EINTR: [4, 'Interrupted system call'],
  EIO: [5, 'Input/output error'],
  ENXIO: [6, 'No such device or address'],
  EBADF: [9, 'Bad file descriptor'],
  EAGAIN: [11, 'Resource temporarily unavailable'],
  ENOMEM: [12, 'Cannot allocate memory'],
  EACCES: [13, 'Permission denied'],
  EBUSY: [16, 'Device or resource busy'],
  EEXIST: [17, 'File exists'],
  EXDEV: [18, 'Invalid cross-device link'],
  ENODEV: [19, 'No such device'],
  ENOTDIR: [20, 'Not a directory'],
  EISDIR: [21, 'Is a directory'],
  EINVAL: [22, 'Invalid argument'],
  ENFILE: [23, 'Too many open files in system'],
  EMFILE: [24, 'Too many open files'],
  ENOTTY: [25, 'Inappropriate ioctl for device'],
  ETXTBSY: [26, 'Text file busy'],
  EFBIG: [27, 'File too large'],
  ENOSPC: [28, 'No space left on device'],
  ESPIPE: [29, 'Illegal seek'],
  EROFS: [30, 'Read-only file system'],
  EMLINK: [31, 'Too many links'],
  EPIPE: [32, 'Broken pipe'],
  ERANGE: [34, 'Numerical result out of range'],
  ENAMETOOLONG: [36, 'File name too long'],
  ENOSYS: [38, 'Function not implemented'],
  ENOTEMPTY: [39, 'Directory not empty'],
  ELOOP: [40, 'Too many levels of symbolic links'],
  EOVERFLOW: [75, 'Value too large for defined data type'],
  EILSEQ: [84, 'Invalid or incomplete multibyte or wide character'],
  ENOTSUP: [95, 'Operation not supported'],
  ECONNRESET: [104, 'Connection reset by peer'],
  ETIMEDOUT: [110, 'Connection timed out'],
  ESTALE: [116, 'Stale file handle'],
  EDQUOT: [122, 'Disk quota exceeded'],
};

// What Node says of arguments before it asks the system, and names of its own.
const ALIKE = {
  ERR_OUT_OF_RANGE: 'EBADF',
  ERR_INVALID_ARG_VALUE: 'EINVAL',
  ECHARSET: 'EILSEQ',
  UNKNOWN: 'EIO',
};

/** The number of an error's code; that of EIO where Linux has no such code. */
function numberOf(code) {
  return (NUMBERS[ALIKE[code] ?? code] ?? NUMBERS.EIO)[0];
}

/** The words for a number. */
function wordsOf(number) {
  const found = Object.values(NUMBERS).find(([one]) => one === number);
  return found ? found[1] : `Unknown error ${number}`;
}

/** An error as Node throws it, by its code alone. */
function fault(code) {
  return Object.assign(new Error(code), { code });
}

module.exports = { fault, numberOf, wordsOf };
