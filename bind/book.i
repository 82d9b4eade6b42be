/*
 * The interface for SWIG, for Python and Java. An area is one argument there: a buffer in Python (writable where it is
 * written), a byte[] in Java. The calls have their comments from book.h with `swig -doxygen`.
 *
 *     swig -python -doxygen -Iinclude bind/book.i
 *     swig -java -doxygen -package book -Iinclude bind/book.i
 *
 * tools/check-bindings builds and runs both.
 */
%module book

%{
#include "book.h"
%}

%include <stdint.i>

#ifdef SWIGPYTHON
%include <pybuffer.i>
%pybuffer_mutable_binary(uint8_t *book, size_t book_len)
%pybuffer_binary(const uint8_t *book, size_t book_len)
%pybuffer_binary(const uint8_t *input, size_t input_len)
%pybuffer_mutable_binary(uint8_t *answer, size_t answer_len)
#endif

#ifdef SWIGJAVA
%javaconst(1); /* constants that a switch can have */
/* The bytes of an array that is written are copied back; those of one that is only read are not. */
%define BOOK_AREA(POINTER, LENGTH, BACK)
%typemap(jni) (POINTER, LENGTH) "jbyteArray"
%typemap(jtype) (POINTER, LENGTH) "byte[]"
%typemap(jstype) (POINTER, LENGTH) "byte[]"
%typemap(javain, pre="    java.util.Objects.requireNonNull($javainput);") (POINTER, LENGTH) "$javainput"
%typemap(in) (POINTER, LENGTH) {
  $1 = ($1_ltype)(*jenv)->GetByteArrayElements(jenv, $input, 0);
  if (!$1) return $null;
  $2 = (size_t)(*jenv)->GetArrayLength(jenv, $input);
}
%typemap(freearg) (POINTER, LENGTH) {
  (*jenv)->ReleaseByteArrayElements(jenv, $input, (jbyte *)$1, BACK);
}
%enddef
BOOK_AREA(uint8_t *book, size_t book_len, 0)
BOOK_AREA(const uint8_t *book, size_t book_len, JNI_ABORT)
BOOK_AREA(const uint8_t *input, size_t input_len, JNI_ABORT)
BOOK_AREA(uint8_t *answer, size_t answer_len, 0)
#endif

%include "book.h"
