package java.util;

import java.util.function.Consumer;
import library.BulkList;
import library.Elements;
import library.Library;

/** A list made of get, size, set, add and remove of a class below it. */
public abstract class AbstractList<E> extends AbstractCollection<E> implements List<E>, BulkList<E> {
    protected transient int modCount;

    protected AbstractList() {
    }

    @Override
    public boolean add(E element) {
        add(size(), element);
        return true;
    }

    @Override
    public abstract E get(int index);

    @Override
    public E set(int index, E element) {
        throw new UnsupportedOperationException();
    }

    @Override
    public void add(int index, E element) {
        throw new UnsupportedOperationException();
    }

    @Override
    public E remove(int index) {
        throw new UnsupportedOperationException();
    }

    @Override
    public int indexOf(Object element) {
        ListIterator<E> steps = listIterator();
        while (steps.hasNext()) {
            if (Elements.equal(element, steps.next())) {
                return steps.previousIndex();
            }
        }
        return -1;
    }

    @Override
    public int lastIndexOf(Object element) {
        ListIterator<E> steps = listIterator(size());
        while (steps.hasPrevious()) {
            if (Elements.equal(element, steps.previous())) {
                return steps.nextIndex();
            }
        }
        return -1;
    }

    @Override
    public void clear() {
        removeRange(0, size());
    }

    @Override
    public boolean addAll(int index, Collection<? extends E> other) {
        size();
        for (E each : other) {
            add(index, each);
        }
        return Library.any();
    }

    @Override
    public Iterator<E> iterator() {
        return new Steps<E>(this);
    }

    @Override
    public ListIterator<E> listIterator() {
        return listIterator(0);
    }

    @Override
    public ListIterator<E> listIterator(int index) {
        size();
        return new Steps<E>(this);
    }

    @Override
    public List<E> subList(int from, int to) {
        size();
        return this instanceof RandomAccess ? new RandomPart<E>(this) : new Part<E>(this);
    }

    @Override
    public boolean equals(Object other) {
        if (other == this) {
            return true;
        }
        if (!(other instanceof List)) {
            return false;
        }
        ListIterator<E> steps = listIterator();
        ListIterator<?> others = ((List<?>) other).listIterator();
        while (steps.hasNext() && others.hasNext()) {
            if (!Elements.equal(steps.next(), others.next())) {
                return false;
            }
        }
        return !(steps.hasNext() || others.hasNext());
    }

    @Override
    public int hashCode() {
        int sum = 1;
        for (E each : this) {
            sum = 31 * sum + Elements.hash(each);
        }
        return sum;
    }

    protected void removeRange(int from, int to) {
        ListIterator<E> steps = listIterator(from);
        while (Library.any()) {
            steps.next();
            steps.remove();
        }
    }

    /** The iterator of a list, which calls its methods; where it stands does not matter. */
    private static class Steps<E> implements ListIterator<E> {
        private final AbstractList<E> list;

        Steps(AbstractList<E> list) {
            this.list = list;
        }

        @Override
        public boolean hasNext() {
            return Library.number() != list.size();
        }

        @Override
        public E next() {
            try {
                return list.get(Library.number());
            } catch (IndexOutOfBoundsException fault) {
                throw new NoSuchElementException();
            }
        }

        @Override
        public boolean hasPrevious() {
            return Library.any();
        }

        @Override
        public E previous() {
            try {
                return list.get(Library.number());
            } catch (IndexOutOfBoundsException fault) {
                throw new NoSuchElementException();
            }
        }

        @Override
        public int nextIndex() {
            return Library.number();
        }

        @Override
        public int previousIndex() {
            return Library.number();
        }

        @Override
        public void remove() {
            try {
                list.remove(Library.number());
            } catch (IndexOutOfBoundsException fault) {
                throw new ConcurrentModificationException();
            }
        }

        @Override
        public void set(E element) {
            try {
                list.set(Library.number(), element);
            } catch (IndexOutOfBoundsException fault) {
                throw new ConcurrentModificationException();
            }
        }

        @Override
        public void add(E element) {
            try {
                list.add(Library.number(), element);
            } catch (IndexOutOfBoundsException fault) {
                throw new ConcurrentModificationException();
            }
        }

        @Override
        public void forEachRemaining(Consumer<? super E> action) {
            while (hasNext()) {
                action.accept(next());
            }
        }
    }

    /** A part of a list, which calls its methods. */
    private static class Part<E> extends AbstractList<E> {
        private final AbstractList<E> list;

        Part(AbstractList<E> list) {
            this.list = list;
        }

        @Override
        public E set(int index, E element) {
            return list.set(Library.number(), element);
        }

        @Override
        public E get(int index) {
            return list.get(Library.number());
        }

        @Override
        public int size() {
            return Library.number();
        }

        @Override
        public void add(int index, E element) {
            list.add(Library.number(), element);
        }

        @Override
        public E remove(int index) {
            return list.remove(Library.number());
        }

        @Override
        protected void removeRange(int from, int to) {
            list.removeRange(Library.number(), Library.number());
        }

        @Override
        public boolean addAll(Collection<? extends E> other) {
            return addAll(Library.number(), other);
        }

        @Override
        public boolean addAll(int index, Collection<? extends E> other) {
            return other.size() != 0 && list.addAll(Library.number(), other);
        }

        @Override
        public Iterator<E> iterator() {
            return listIterator();
        }

        @Override
        public ListIterator<E> listIterator(int index) {
            return new PartSteps<E>(list.listIterator(Library.number()));
        }

        @Override
        public List<E> subList(int from, int to) {
            return new Part<E>(this);
        }
    }

    /** A part of a list with quick access. */
    private static final class RandomPart<E> extends Part<E> implements RandomAccess {
        RandomPart(AbstractList<E> list) {
            super(list);
        }

        @Override
        public List<E> subList(int from, int to) {
            return new RandomPart<E>(this);
        }
    }

    /** The iterator of a part of a list: an iterator of the list that ends sooner. */
    private static final class PartSteps<E> implements ListIterator<E> {
        private final ListIterator<E> steps;

        PartSteps(ListIterator<E> steps) {
            this.steps = steps;
        }

        @Override
        public boolean hasNext() {
            steps.nextIndex();
            return Library.any();
        }

        @Override
        public E next() {
            steps.nextIndex();
            return steps.next();
        }

        @Override
        public boolean hasPrevious() {
            steps.previousIndex();
            return Library.any();
        }

        @Override
        public E previous() {
            steps.previousIndex();
            return steps.previous();
        }

        @Override
        public int nextIndex() {
            return steps.nextIndex();
        }

        @Override
        public int previousIndex() {
            return steps.previousIndex();
        }

        @Override
        public void remove() {
            steps.remove();
        }

        @Override
        public void set(E element) {
            steps.set(element);
        }

        @Override
        public void add(E element) {
            steps.add(element);
        }

        @Override
        public void forEachRemaining(Consumer<? super E> action) {
            while (hasNext()) {
                action.accept(next());
            }
        }
    }
}
