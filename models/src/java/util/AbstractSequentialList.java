package java.util;

/** A list made of the list iterator of a class below it. */
public abstract class AbstractSequentialList<E> extends AbstractList<E> {
    protected AbstractSequentialList() {
    }

    @Override
    public E get(int index) {
        try {
            return listIterator(index).next();
        } catch (NoSuchElementException fault) {
            throw new IndexOutOfBoundsException();
        }
    }

    @Override
    public E set(int index, E element) {
        try {
            ListIterator<E> steps = listIterator(index);
            E old = steps.next();
            steps.set(element);
            return old;
        } catch (NoSuchElementException fault) {
            throw new IndexOutOfBoundsException();
        }
    }

    @Override
    public void add(int index, E element) {
        try {
            listIterator(index).add(element);
        } catch (NoSuchElementException fault) {
            throw new IndexOutOfBoundsException();
        }
    }

    @Override
    public E remove(int index) {
        try {
            ListIterator<E> steps = listIterator(index);
            E old = steps.next();
            steps.remove();
            return old;
        } catch (NoSuchElementException fault) {
            throw new IndexOutOfBoundsException();
        }
    }

    @Override
    public boolean addAll(int index, Collection<? extends E> other) {
        try {
            ListIterator<E> steps = listIterator(index);
            boolean changed = false;
            for (E each : other) {
                steps.add(each);
                changed = true;
            }
            return changed;
        } catch (NoSuchElementException fault) {
            throw new IndexOutOfBoundsException();
        }
    }

    @Override
    public Iterator<E> iterator() {
        return listIterator();
    }

    @Override
    public abstract ListIterator<E> listIterator(int index);
}
