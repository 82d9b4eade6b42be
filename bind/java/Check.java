import book.book;
import book.bookConstants;

import java.io.BufferedInputStream;
import java.io.DataInputStream;
import java.io.EOFException;
import java.io.IOException;
import java.util.Arrays;

/**
 * Check COUNT &lt;CASES: holds SWIG's wrapper for Java to the cases of the program `cases` of second/, with every byte
 * compared. It wants COUNT cases of each call. The last line is 'N passed, M failed'.
 */
public final class Check implements bookConstants {
    private static final DataInputStream IN = new DataInputStream(new BufferedInputStream(System.in, 1 << 20));
    private static int passed;
    private static int failed;

    private static byte[] take(int length) throws IOException {
        byte[] bytes = new byte[length];
        IN.readFully(bytes);
        return bytes;
    }

    private static int number() throws IOException {
        return Integer.reverseBytes(IN.readInt());
    }

    private static int call(int kind, byte[] rows, byte[] input, byte[] answer) {
        switch (kind) {
            case BOOK_KIND_ORDER: return book.book_order(rows, input, answer);
            case BOOK_KIND_RESULT: return book.book_result(rows, input, answer);
            case BOOK_KIND_FEED: return book.book_feed(rows, input, answer);
            case BOOK_KIND_LOOKUP: return book.book_lookup(rows, input, answer);
            default: throw new IllegalArgumentException("no call has input records of kind " + kind);
        }
    }

    private static void want(boolean good, String what) {
        if (good) {
            passed++;
        } else {
            failed++;
            System.out.println(what);
        }
    }

    /** Runs the next case, and gives its kind, or -1 at the end. */
    private static int next() throws IOException {
        int kind;
        try {
            kind = number();
        } catch (EOFException end) {
            return -1;
        }
        int n = number(), rowsLength = number(), inputLength = number(), answerLength = number(), status = number();
        byte[] rows = take(rowsLength), input = take(inputLength), answer = take(answerLength);
        byte[] inputBefore = input.clone();
        int found = call(kind, rows, input, answer);
        boolean same = Arrays.equals(rows, take(rowsLength)) & Arrays.equals(answer, take(answerLength));
        want(found == status && same && Arrays.equals(input, inputBefore),
             "kind " + kind + " case " + n + ": status " + found + " instead of " + status + ", or other bytes");
        return kind;
    }

    public static void main(String[] words) throws IOException {
        System.loadLibrary("bookjava");
        int count = Integer.parseInt(words[0]);
        int[] seen = new int[BOOK_KIND_LOOKUP + 1];
        for (int kind = next(); kind >= 0; kind = next()) {
            seen[kind]++;
        }
        for (int kind = BOOK_KIND_ORDER; kind <= BOOK_KIND_LOOKUP; kind++) {
            want(seen[kind] == count, seen[kind] + " cases of kind " + kind);
        }
        try {
            book.book_order(new byte[BOOK_RECORD_SIZE], null, new byte[BOOK_RECORD_SIZE]);
            want(false, "an area that is null was taken");
        } catch (NullPointerException refused) {
            want(true, "");
        }
        System.out.println(passed + " passed, " + failed + " failed");
        System.exit(failed > 0 ? 1 : 0);
    }
}
