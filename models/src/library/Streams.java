package library;

import java.util.Spliterator;
import java.util.stream.Stream;

/** New streams and spliterators of the library, which give what was kept. */
public final class Streams {
    private Streams() {
    }

    public static native <T> Stream<T> stream();

    public static native <T> Spliterator<T> spliterator();
}
