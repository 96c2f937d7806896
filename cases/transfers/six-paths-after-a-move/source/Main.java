// The paths are counted after those that go are gone: when the sixth local gets the object from the stack, six paths
// are left, and none is dropped.

class F {
    void read() {}
    void close() {}
}

final class Main {
    public static void main(String[] words) {
        F a = new F();
        F[] box = new F[1];
        if (words.length > 1) {
            // So the array may have it, for whoever does not look at the order.
            box[0] = a;
            return;
        }
        F b = a;
        F c = a;
        F d = a;
        F e = a;
        F g = a;
        box[0].close();
        a.read();
    }
}
