package library;

import java.util.function.Consumer;

/** What the library hands to forEach of a collection from which it takes the elements. */
public final class Keeper<E> implements Consumer<E> {
    @Override
    public void accept(E element) {
        Library.keep(element);
    }
}
