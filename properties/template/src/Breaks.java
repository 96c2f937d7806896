/** Uses the resource after it was closed. */
public final class Breaks {
    private Breaks() {
    }

    public static void main(String[] args) {
        Resource resource = new Resource();
        resource.open();
        System.out.println(resource.use(args.length));
        resource.close();
        System.out.println(resource.use(args.length));
    }
}
