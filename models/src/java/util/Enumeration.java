package java.util;

/** The elements of a container, one after another. */
public interface Enumeration<E> {
    boolean hasMoreElements();

    E nextElement();
}
